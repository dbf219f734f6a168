#!/usr/bin/env bash
# Finds the least stack under which chex runs each of the deepest cells that the limits allow, to 16 KB,
# and prints it. Ends with 1 where one needs more than 8 MB.
# A program other than the one that `run` builds may be named as first word.
set -euo pipefail
source "$(dirname "${BASH_SOURCE[0]}")/program.sh"
python3 "$here/deepest.py" "$folder"
# Writes what the program writes under so many kilobytes of stack, and then its status.
under() {
    local status=0
    (ulimit -s "$1" && exec "$program" solo "$2") 2>/dev/null || status=$?
    echo "status $status"
}
failed=0
for notebook in "$folder"/*.ipynb; do
    wanted="$(under 65536 "$notebook")"
    low=0
    high=65536
    while [ $((high - low)) -gt 16 ]; do
        middle=$(((low + high) / 2))
        if [ "$(under $middle "$notebook" 2>/dev/null)" = "$wanted" ]; then high=$middle; else low=$middle; fi
    done
    echo "$high KB: $(basename "$notebook" .ipynb): $(echo "$wanted" | tr '\n' ' ')"
    [ "$high" -le 8192 ] || failed=1
done
exit "$failed"
