# What the scripts of bench/ begin with, read by `.`: sets here, root, out, oracle, program and library, and has the
# functions below. ORACLE, PROGRAM and LIBRARY name others than target/oracle, target/bin/line_program and
# target/staticlib/liblines.a.
here=$(cd "$(dirname "$0")" && pwd)
root=${here%/bench*}
out=$root/target/bench
oracle=${ORACLE:-$root/target/oracle}
program=${PROGRAM:-$root/target/bin/line_program}
library=${LIBRARY:-$root/target/staticlib/liblines.a}

mkdir -p "$out"
work=$(mktemp -d)
trap 'rm -rf "$work"' EXIT

# Makes the oracle where it is missing or older than its files, unless ORACLE names another.
need_oracle() {
    [ -z "${ORACLE:-}" ] || return 0
    last=$oracle/selftest
    [ -x "$last" ] && [ -z "$(find "$root/oracle" -type f -newer "$last")" ] || "$root/oracle/build.sh" >&2
}

# staticlib NAME [AS]: proves the crate and makes its library, which is silent unless it fails.
staticlib() {
    "$root/tools/make.sh" library "$@" > "$out/staticlib.log" 2>&1 || {
        cat "$out/staticlib.log" >&2
        exit 1
    }
}

# compile NAME SOURCE WORD..: makes $out/NAME, with further words for rustc.
compile() {
    name=$1
    source=$2
    shift 2
    rustc --edition 2021 -O -C codegen-units=1 --crate-name "$name" -L dependency="$oracle" \
        -L dependency="$oracle/plain" -L dependency="$oracle/traced" \
        -L native="$(dirname "$library")" -L native="$root/target/staticlib" \
        "$@" "$here/$source" -o "$out/$name"
}

# generate SEED COUNT [kind KK]: the generator's lines into $work/lines. Its status says whether its coverage is
# complete, which takes a million lines of all kinds; here any lines will do.
generate() {
    "$oracle/generate" "$@" > "$work/lines" 2> /dev/null || true
    [ -s "$work/lines" ]
}

# turn PROGRAM: the time of one run on $work/lines, in nanoseconds.
turn() {
    start=$(date +%s%N)
    "$1" < "$work/lines" > /dev/null
    echo $(($(date +%s%N) - start))
}

# least OLD NEW: the lesser of two numbers, the first of which may be missing.
least() {
    if [ -n "$1" ] && [ "$1" -le "$2" ]; then echo "$1"; else echo "$2"; fi
}
