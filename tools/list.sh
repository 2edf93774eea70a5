#!/bin/sh
# Lists a pass file: proves and builds the lister where it has changed, and runs it on the file.
set -eu

usage="usage: sh tools/list.sh [FILE]     (with no FILE: the sample samples/two-frames.pass)"
here=$(cd "$(dirname "$0")/.." && pwd)
case ${1:-} in
-h | --help) echo "$usage"; exit 0 ;;
esac
[ $# -le 1 ] || { echo "$usage" >&2; exit 2; }
file=${1:-$here/samples/two-frames.pass}
[ -r "$file" ] && [ ! -d "$file" ] || { echo "list.sh: cannot read the file $file" >&2; exit 2; }
command -v rt >/dev/null || { echo "list.sh: no 'rt' on the PATH: the Rattle kit is needed" >&2; exit 2; }

log=$(mktemp)
trap 'rm -f "$log"' EXIT
lister=$here/crates/lister/out/lister
[ -x "$lister" ] || echo "list.sh: proving and building the lister, about two minutes" >&2
# The kit builds a program where it runs it.
if ! (cd "$here/crates/lister" && rt run -- --help) </dev/null >"$log" 2>&1; then
    tail -n 20 "$log" >&2
    echo "list.sh: the lister was not built" >&2
    exit 1
fi
"$lister" <"$file"
