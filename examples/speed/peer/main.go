// Peer runs a file of Starlark by starlark-go, as one module. What it prints goes to standard output.
package main

import (
	"bufio"
	"fmt"
	"os"

	"go.starlark.net/resolve"
	"go.starlark.net/starlark"
)

func main() {
	if len(os.Args) != 2 {
		fmt.Fprintln(os.Stderr, "usage: peer FILE")
		os.Exit(2)
	}
	resolve.AllowGlobalReassign = true
	out := bufio.NewWriter(os.Stdout)
	defer out.Flush()
	thread := &starlark.Thread{
		Name:  "peer",
		Print: func(_ *starlark.Thread, text string) { out.WriteString(text + "\n") },
	}
	if _, err := starlark.ExecFile(thread, os.Args[1], nil, nil); err != nil {
		out.Flush()
		fmt.Fprintln(os.Stderr, err)
		os.Exit(1)
	}
}
