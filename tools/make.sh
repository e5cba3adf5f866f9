#!/bin/sh
# Proves a program or a static library and puts it where the scripts of hosts/, bench/ and oracle/ look for it.
#
#   tools/make.sh program NAME         target/bin/NAME
#   tools/make.sh library NAME [AS]    target/staticlib/libAS.a, from the crate NAME (AS is NAME where it is left out)
set -eu
cd "$(dirname "$0")/.."
name=$2
case $1 in
program)
    mkdir -p target/bin
    (cd "crates/$name" && rt run < /dev/null > /dev/null)
    cp "crates/$name/out/$name" "target/bin/$name"
    ;;
library)
    mkdir -p target/staticlib
    (cd "crates/$name" && rt lib)
    cp "crates/$name/out/lib$name.a" "target/staticlib/lib${3:-$name}.a"
    ;;
*)
    sed -n '2,5p' "$0" >&2
    exit 2
    ;;
esac
