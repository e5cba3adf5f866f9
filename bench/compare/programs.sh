#!/bin/sh
# The line program beside the oracle's, as programs: file in, nothing kept of what they write.
#
#   bench/compare/programs.sh SEED COUNT [KINDS]
#
# Prints, kind by kind, nanoseconds a line of both, the fastest of eleven turns each, and the port's time over the
# Rust's.
set -eu

. "$(dirname "$0")/../begin.sh"
need_oracle
seed=$1
count=$2
kinds=${3:-00 01 02 03 04 05 06 07 08 11 12 13 14 15}

echo "seed $seed, $count lines a kind, nanoseconds a line"
echo "kind   Rust   port  ratio"
for kind in $kinds; do
    generate "$seed" "$count" kind "$kind"
    lines=$(wc -l < "$work/lines")
    rust=
    port=
    for _ in 1 2 3 4 5 6 7 8 9 10 11; do
        rust=$(least "$rust" "$(turn "$oracle/oracle")")
        port=$(least "$port" "$(turn "$program")")
    done
    awk -v k="$kind" -v r="$rust" -v p="$port" -v n="$lines" \
        'BEGIN { printf "  %s %6.0f %6.0f %6.2f\n", k, r / n, p / n, p / r }'
done
