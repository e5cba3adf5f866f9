#!/bin/sh
# Compares the line program with the oracle's: the generator's lines from a file and
# through a pipe in parts of odd sizes, lines around the longest, ends with and
# without a line feed, and a line of a gigabyte. Prints the time of each.
#
#   bench/compare/program.sh SEED COUNT [kind KK]
set -eu

. "$(dirname "$0")/../begin.sh"
need_oracle
generate "$@"
echo "oracle:"
time -p "$oracle/oracle" < "$work/lines" > "$work/wanted"
echo "line program:"
time -p "$program" < "$work/lines" > "$work/got"
cmp "$work/wanted" "$work/got"
for size in 1 7 297 4095 65537; do
    head -c 3000000 "$work/lines" | dd bs=$size 2> /dev/null | "$program" > "$work/got"
    head -c 3000000 "$work/lines" | "$oracle/oracle" | cmp - "$work/got"
done
echo "the same from a file and through pipes"

zeros() {
    head -c "$1" /dev/zero | tr '\0' '0'
}
for length in 0 1 2 295 296 297 298 299 65535 65536 65537 131072; do
    for end in '' '\n' '\n\n' '\nx' 'x\n00'; do
        (zeros $length; printf "$end") > "$work/lines"
        "$oracle/oracle" < "$work/lines" > "$work/wanted"
        "$program" < "$work/lines" | cmp - "$work/wanted"
    done
done
echo "the same at the ends"
time -p sh -c "head -c 1000000000 /dev/zero | '$program'"
