#!/bin/sh
# How the line program's time and memory grow with its input, over four powers of ten.
#
#   bench/growth.sh SEED
#
# Inputs of 1,000 to 10,000,000 lines: the generator's lines of all kinds, empty lines, lines with a wrong character,
# and one line without end. Prints the bytes read and written, the time, nanoseconds a byte less the program's start,
# and the largest memory.
# It needs GNU time.
set -eu

. "$(dirname "$0")/begin.sh"
need_oracle
generate "$1" 100000
mv "$work/lines" "$work/mixed"
line=$(printf '0%.0s' $(seq 296))

# COUNT lines of a sort
lines() {
    case $1 in
    mixed)
        if [ "$2" -le 100000 ]; then
            head -n "$2" "$work/mixed"
        else
            i=0
            while [ $i -lt $(($2 / 100000)) ]; do
                cat "$work/mixed"
                i=$((i + 1))
            done
        fi
        ;;
    empty) yes '' | head -n "$2" ;;
    wrong) yes "${line}G" | head -n "$2" ;;
    endless) yes "$line" | tr -d '\n' | head -c $(($2 * 296)) ;;
    esac
}

# The fastest of five runs, in microseconds; the start of the program is in it, so the empty input is shown as well.
fastest() {
    best=
    for _ in 1 2 3 4 5; do
        best=$(least "$best" "$(turn "$program")")
    done
    echo $((best / 1000))
}

: > "$work/lines"
alone=$(fastest)
echo "no input: $alone microseconds"
echo "lines          count         read      written  microseconds  ns/byte  kilobytes"
for sort in mixed empty wrong endless; do
    for count in 1000 10000 100000 1000000 10000000; do
        lines $sort $count > "$work/lines"
        # The output is counted in a run of its own, so that nothing waits for the counter.
        written=$("$program" < "$work/lines" | wc -c)
        /usr/bin/time -f '%M' -o "$work/memory" "$program" < "$work/lines" > /dev/null
        awk -v s=$sort -v n=$count -v r="$(wc -c < "$work/lines")" -v w="$written" -v t="$(fastest)" -v o="$alone" \
            '{ printf "%-10s %9d %12.0f %12.0f %13.0f %8.3f %10d\n", s, n, r, w, t, (t - o) * 1e3 / (r + w), $1 }' \
            "$work/memory"
    done
done
