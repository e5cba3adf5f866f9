#!/bin/sh
# Compares the port with the Rust at scale, in one process.
#
#   bench/compare/run.sh lines SEED MILLIONS [KINDS]
#   bench/compare/run.sh speed SEED [KINDS]
#
# `lines` sends MILLIONS million lines of the generator, with different numbers of
# lent places, to both sides and counts differences; million k has the seed
# SEED + k, so that one can be run again by itself. `speed` prints nanoseconds a
# line and the port's time over the Rust's, kind by kind. KINDS is a list such as
# 00,01,15, all kinds if not given. It ends with status 1 if there is a difference.
#
# It needs the oracle (oracle/build.sh) and the static library (tools/make.sh),
# and makes what is missing.
set -eu

. "$(dirname "$0")/../begin.sh"
need_oracle
[ -f "$library" ] || staticlib lines_c lines
compile compare main.rs --extern cases="$oracle/libcases.rlib" --extern plain="$oracle/plain/liboracle.rlib"
"$out/compare" "$@"
