#!/bin/sh
# Runs all tests. The last line is that of `rt ci`, and is the verdict, but where this script says below it what failed.
set -eu
cd "$(dirname "$0")/.."

fail() { echo "test.sh: $*" >&2; exit 1; }

# The kit that the proofs were made with.
pinned=$(cat KIT)
[ "$(rt version)" = "$pinned" ] || echo "test.sh: note: the kit is '$(rt version)', and the proofs were made with '$pinned'"

# Every crate is checked.
for crate in crates/*/; do
    name=$(basename "$crate")
    grep -q "^$name:" crates.txt || fail "crates/$name is not listed in crates.txt"
done

# The program, from its input to its output and status, beyond the one run that `rt ci` makes.
listed=$(sh tools/list.sh)
[ "$listed" = "$(cat crates/lister/stdout)" ] || fail "the sample lists as: $listed"
cmp -s samples/two-frames.pass crates/lister/stdin || fail "the sample and the lister's stdin differ"
lister=crates/lister/out/lister
[ "$($lister </dev/null)" = "end 0" ] || fail "an empty input does not list as 'end 0'"
[ "$(timeout 10 $lister </dev/zero)" = "fault 14 65536" ] || fail "an endless input does not list as fault 14"
$lister --help | grep -q '^usage: lister < FILE$' || fail "no help"
if $lister no-such-argument 2>/dev/null; then fail "an argument is not refused"; fi
refused=$($lister no-such-argument 2>&1) || true
[ "$refused" = "lister: unexpected argument; usage: lister < FILE (lister --help says more)" ] || fail "an argument is refused with: $refused"
if $lister <crates 2>/dev/null; then fail "an input that cannot be read is not refused"; fi
echo "test.sh: the lister lists the sample, an empty and an endless input, and refuses what it must"

# The merge gate. It passes where a must-fail edit no longer fits the code, and says so on its line `rt: ok`.
log=$(mktemp)
trap 'rm -f "$log" "$log.status"' EXIT
{
    rt ci 2>&1 && status=0 || status=$?
    echo "$status" >"$log.status"
} | tee "$log"
status=$(cat "$log.status")
[ "$status" = 0 ] || exit "$status"
if grep '^rt: ok' "$log" | grep -Eq ', [0-9]+ bad'; then fail "a must-fail edit does not fit the code"; fi
