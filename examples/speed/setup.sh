#!/usr/bin/env bash
# Builds the peer, starlark-go, into the folder that is named. It needs Debian's packages golang-go and
# golang-starlark-dev.
set -euo pipefail
here="$(cd "$(dirname "${BASH_SOURCE[0]}")" && pwd)"
mkdir -p "$1"
to="$(cd "$1" && pwd)"
cd "$here/peer"
GO111MODULE=off GOPATH=/usr/share/gocode GOCACHE="$to/cache" go build -o "$to/peer" .
echo "$to/peer"
