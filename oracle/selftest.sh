#!/bin/sh
# Tests the oracle, its line program, the generator and the lists.
#
#   oracle/selftest.sh [SRC_DIR]
set -eu

here=$(cd "$(dirname "$0")" && pwd)
out=$(dirname "$here")/target/oracle
"$here/build.sh" "$@"
work=$(mktemp -d)
trap 'rm -rf "$work"' EXIT

# same WANTED PLACES INPUT: the line program on what printf makes of INPUT.
same() {
    got=$(printf "$3" | "$out/oracle" "$2")
    [ "$got" = "$1" ] || {
        echo "selftest.sh: $3 with $2 places gives $got, not $1" >&2
        exit 1
    }
}
zeros() {
    printf "%0$1d" 0
}

"$out/selftest" 1 1000000

same "" 728 ""
same "01" 728 '\n'
same "01" 728 '0'
same "$(printf '01\n02\n03\n04')" 728 '\n0g\n09\n00'
same "$(printf '01\n01')" 728 "$(zeros 297)\n$(zeros 298)\n"
same "01070100$(zeros 720)" 728 "00000700$(zeros 288)"
same "01070100$(zeros 720)" 5000 "00000700$(zeros 288)\n"
same "08" 727 "00000700$(zeros 288)"
same "08" 727 "01$(zeros 192)"
same "00070000$(zeros 720)" 728 "01$(zeros 192)"
# With all numbers 0 neither attempt of the first shape gets as far as `check`.
same "08" 731 "11$(zeros 192)"
same "00070000$(zeros 720)000C" 732 "11$(zeros 192)"
same "00070000$(zeros 720)000C" 5000 "11$(zeros 192)\n"
same "$(printf '03\n03\n04')" 732 '10\n16\n11'
same "08" 227 "06$(zeros 192)"
same "$(printf "06$(zeros 192)" | "$out/oracle")" 228 "06$(zeros 192)"
# A line of three million characters, then an empty one.
[ "$( (head -c 3000000 /dev/zero | tr '\0' '0'; printf '\n\n') | "$out/oracle")" = "$(printf '01\n01')" ]
echo "the line program's ends hold"

"$out/generate" 1 1000000 > "$work/lines" 2> "$work/coverage" || {
    cat "$work/coverage" >&2
    exit 1
}
"$out/oracle" < "$work/lines" > "$work/whole"
cat "$work/lines" | "$out/oracle" | cmp - "$work/whole"
[ "$(wc -l < "$work/whole")" = 1000000 ]
echo "a million lines cover every case; read in small parts they give the same"

for list in kind00 shapes rest broken causes; do
    "$out/lists" $list 1 3000 "$work/input" "$work/output"
    "$out/oracle" < "$work/input" | cmp - "$work/output"
done

# calls LINES REPLIES: each kind of 11 to 15 with each count of calls, and with each cause.
calls() {
    paste -d ' ' "$1" "$2" | awk 'length($2) == 732 {
        kind = substr($1, 1, 2)
        print kind, "count", substr($2, 729, 2)
        print kind, "cause", substr($2, 731, 2)
    }' | sort -u
}
calls "$work/lines" "$work/whole" > "$work/came"
calls "$work/input" "$work/output" > "$work/listed"
cmp "$work/came" "$work/listed"
echo "the list of causes has each count and each cause of the million lines"
