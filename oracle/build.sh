#!/bin/sh
# Builds the oracle, the generator, the list maker and the self-test with rustc
# alone, into target/oracle of this repository.
#
#   oracle/build.sh [SRC_DIR]
#
# SRC_DIR holds the Rust sources (lib/src/rsruckig/...), by default
# ../shared/docs/src beside this checkout. They are read, never stored here: the
# edited copy is made under target/oracle.
set -eu

here=$(cd "$(dirname "$0")" && pwd)
root=$(dirname "$here")
src=${1:-$root/../shared/docs/src}
out=$root/target/oracle
registry=/usr/share/cargo/registry

compile() {
    rustc --edition 2021 -O -C codegen-units=1 "$@"
}

# The Rust keeps its roots in an ArrayVec; Debian has the crate's source.
arrayvec_source() {
    ls -d "$registry"/arrayvec-*/src/lib.rs 2>/dev/null | head -n 1
}
if [ -z "$(arrayvec_source)" ]; then
    apt-get update
    apt-get install -y librust-arrayvec-dev
fi
[ -n "$(arrayvec_source)" ] || {
    echo "build.sh: no arrayvec source under $registry" >&2
    exit 1
}

mkdir -p "$out"
compile --crate-name edit "$here/edit/main.rs" -o "$out/edit"
rustc --edition 2018 -O --cap-lints allow --crate-type rlib --crate-name arrayvec \
    "$(arrayvec_source)" -o "$out/libarrayvec.rlib"

# copy VARIANT WORD..: a copy of the Rust and the line entry over it, with further words
# for the entry.
copy() {
    variant=$1
    copy=$out/$variant
    shift
    mkdir -p "$copy"
    cp "$here"/reference/*.rs "$copy/"
    "$out/edit" "$variant" "$src/lib/src/rsruckig" "$copy"
    compile --crate-type rlib --crate-name rsruckig -C metadata="$variant" \
        --cap-lints allow --cfg 'feature="std"' --cfg "$variant" \
        --extern arrayvec="$out/libarrayvec.rlib" \
        "$copy/lib.rs" -o "$copy/librsruckig.rlib"
    compile --crate-type rlib --crate-name oracle -C metadata="$variant" \
        --check-cfg 'cfg(plain)' --check-cfg 'cfg(traced)' --cfg "$variant" \
        -L dependency="$out" --extern rsruckig="$copy/librsruckig.rlib" "$@" \
        "$here/src/lib.rs" -o "$copy/liboracle.rlib"
}

# `plain` is the oracle. `traced` also reports which tests refused, which square roots do not
# exist and what the quartics were given, so it answers the kinds that ask for causes; the
# self-test compares the two line by line.
copy traced
copy plain -L dependency="$out/traced" --extern traced="$out/traced/liboracle.rlib"

program() {
    name=$1
    source=$2
    variant=$3
    shift 3
    compile --crate-name "$name" -L dependency="$out" -L dependency="$out/$variant" \
        --extern oracle="$out/$variant/liboracle.rlib" \
        --extern rsruckig="$out/$variant/librsruckig.rlib" \
        "$@" "$source" -o "$out/$name"
}

program oracle "$here/program/main.rs" plain -L dependency="$out/traced"

# Lines and numbers to try; they need right root answers and the traces.
compile --crate-type rlib --crate-name cases -L dependency="$out" -L dependency="$out/traced" \
    --extern oracle="$out/traced/liboracle.rlib" \
    --extern rsruckig="$out/traced/librsruckig.rlib" \
    "$here/cases/lib.rs" -o "$out/libcases.rlib"
program lists "$here/lists/main.rs" traced --extern cases="$out/libcases.rlib"
program generate "$here/generate/main.rs" traced --extern cases="$out/libcases.rlib"
program selftest "$here/selftest/main.rs" traced --extern cases="$out/libcases.rlib" \
    -L dependency="$out/plain" --extern plain="$out/plain/liboracle.rlib"
