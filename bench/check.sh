#!/bin/sh
# Times `check` beside the Rust's, on kind 00 lines of the oracle's generator. Needs
# rt and rustc. A thousand cases are timed first, then all of them.
#
#   bench/check.sh [SEED [COUNT]]
set -eu

. "$(dirname "$0")/begin.sh"
need_oracle
staticlib bench_exports
staticlib bench_by_value
compile check check.rs --extern oracle="$oracle/plain/liboracle.rlib" \
    --extern rsruckig="$oracle/plain/librsruckig.rlib" -l static=bench_exports -l static=bench_by_value
generate "${1:-1}" "${2:-20000}" kind 00
uptime
"$out/check" < "$work/lines"
