#!/bin/sh
# Builds the Rust host over the static library liblines.a, and runs it on lines.
#
#   hosts/rust/run.sh [LINES [REPLIES]]
#
# As hosts/c/run.sh.
set -eu

. "$(dirname "$0")/../library.sh"
rustc --edition 2021 -O --crate-name rust_host -L native="$(dirname "$library")" \
    "$here/host.rs" -o "$out/rust_host"
run "$out/rust_host" Rust past
