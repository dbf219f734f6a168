# Read by the scripts beside it: `program` is the chex that is tried, the one that `run` builds where no other is named as first
# word, `here` this folder, and `folder` an empty one, which goes when the script ends.
here="$(cd "$(dirname "${BASH_SOURCE[0]}")" && pwd)"
top="$here/../.."
program="${1:-$top/crates/chex_cli/out/chex_cli}"
[ $# -gt 0 ] || "$top/run" solo "$top/examples/first.ipynb" >/dev/null
folder="$(mktemp -d)"
trap 'rm -rf "$folder"' EXIT
