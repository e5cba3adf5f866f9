#!/bin/sh
# Puts numbers to the Rust's `integrate` and to the port's, and compares every answer, character by character: a million
# a seed, from SEED on. A quarter each has a subnormal acceleration, a subnormal jerk, huge numbers, anything at all.
#
#   oracle/integrate.sh SEED MILLIONS
#
# Makes target/oracle and target/bin/integrate_list where they are missing.
set -eu

root=$(cd "$(dirname "$0")/.." && pwd)
oracle=$root/target/oracle
port=$root/target/bin/integrate_list
seed=$1
last=$(($1 + $2 - 1))

[ -x "$oracle/lists" ] || "$root/oracle/build.sh"
[ -x "$port" ] || "$root/tools/make.sh" program integrate_list
work=$(mktemp -d)
trap 'rm -rf "$work"' EXIT
while [ "$seed" -le "$last" ]; do
    "$oracle/lists" halving "$seed" 1000000 "$work/lines" "$work/expected" 2> "$work/counts"
    "$port" < "$work/lines" | cmp - "$work/expected"
    seed=$((seed + 1))
done
echo "of the last million:"
cat "$work/counts"
echo "integrate, seeds $1 to $last, a million each: no difference"
