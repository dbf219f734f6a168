#!/usr/bin/env bash
# Runs chex under a stack of 8 MB and of 2 MB on cells that are as long, and nest as deep, as a cell
# may, and prints the status of each. Ends with 1 where one is ended by a signal.
# A program other than the one that `run` builds may be named as first word.
set -euo pipefail
source "$(dirname "${BASH_SOURCE[0]}")/program.sh"
python3 "$here/rows.py" "$folder"
failed=0
for kilobytes in 8192 2048; do
    for notebook in "$folder"/*.ipynb; do
        status=0
        (ulimit -s "$kilobytes" && exec "$program" solo "$notebook") >"$folder/out" 2>&1 || status=$?
        echo "$kilobytes KB: status $status: $(basename "$notebook" .ipynb)"
        [ "$status" -lt 128 ] || failed=1
    done
done
exit "$failed"
