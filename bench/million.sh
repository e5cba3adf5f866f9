#!/bin/sh
# A million checks, one command: as many accepted kind 00 lines of the oracle's generator go through the static library
# and through `check` of docs/src behind a reader of its own in Rust, in one process, by turns. Prints what the lines
# cover; then, once every reply was compared, both durations and the port's over the Rust's.
#
#   bench/million.sh [SEED]
#
# It ends with status 1 if a case of kind 00 never came up, if less than a quarter of the lines have a yes, if a reply
# differs, or if the port takes more than twice the Rust's time. It makes the oracle where that is missing or old, and
# the static library unless LIBRARY names one. CPU is what the Rust is compiled for: x86-64, as the library is, if not
# given.
set -eu

. "$(dirname "$0")/begin.sh"
need_oracle
[ -n "${LIBRARY:-}" ] || staticlib lines_c lines
compile million million/main.rs -C target-cpu="${CPU:-x86-64}" --extern plain="$oracle/plain/liboracle.rlib" \
    --extern rsruckig="$oracle/plain/librsruckig.rlib"
echo "seed ${1:-1}"
"$oracle/generate" "${1:-1}" 1000000 checks 2>&1 > "$work/lines"
"$out/million" < "$work/lines"
