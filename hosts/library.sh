# What the scripts of the hosts begin with, read by `.`: sets here, root, library, out,
# lines (the first word, or the samples) and replies (the second, if any), and makes the
# static library where it is missing. LIBRARY names another archive than
# target/staticlib/liblines.a.
here=$(cd "$(dirname "$0")" && pwd)
root=$(dirname "$(dirname "$here")")
library=${LIBRARY:-$root/target/staticlib/liblines.a}
out=$root/target/hosts
lines=${1:-$root/samples/moves.txt}
replies=${2:-}

[ -f "$library" ] || "$root/tools/make.sh" library lines_c lines >&2
mkdir -p "$out"

# run HOST NAME WHERE: the host on the lines. With replies, what it writes is compared with
# them, with and without guarded places, which lie WHERE of a reply.
run() {
    if [ -z "$replies" ]; then
        "$1" < "$lines"
        return
    fi
    "$1" < "$lines" | cmp - "$replies"
    "$1" guard < "$lines" | cmp - "$replies"
    echo "the $2 host writes what $replies has, and no place $3 a reply"
}
