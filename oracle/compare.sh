#!/bin/sh
# Puts generated lines to the oracle and to the port, and compares every reply, character by character.
#
#   oracle/compare.sh SEED COUNT [KIND..]     COUNT accepted lines of each kind; all kinds where none is named
#
# Needs target/bin/moves_list, which `tools/make.sh program moves_list` makes, and target/oracle, which oracle/build.sh
# makes.
set -eu

root=$(cd "$(dirname "$0")/.." && pwd)
oracle=$root/target/oracle
port=$root/target/bin/moves_list
seed=$1
count=$2
shift 2
[ $# -gt 0 ] || set -- 00 01 02 03 04 05 06 07 08 11 12 13 14 15

[ -x "$oracle/generate" ] || "$root/oracle/build.sh"
[ -x "$port" ] || "$root/tools/make.sh" program moves_list
work=$(mktemp -d)
trap 'rm -rf "$work"' EXIT
status=0
for kind in "$@"; do
    "$oracle/generate" "$seed" "$count" kind "$kind" > "$work/lines" 2> "$work/coverage"
    "$oracle/oracle" < "$work/lines" > "$work/expected"
    "$port" < "$work/lines" > "$work/written"
    lines=$(wc -l < "$work/lines")
    if cmp -s "$work/expected" "$work/written"; then
        echo "kind $kind, seed $seed: $lines lines, no difference"
    else
        echo "kind $kind, seed $seed: $lines lines, DIFFERENT: $(cmp "$work/expected" "$work/written" 2>&1 || true)"
        status=1
    fi
done
exit $status
