#!/bin/sh
# Times the square root beside Rust's, or compares so many roots with Rust's. Needs rt and rustc.
#
#   bench/sqrt.sh
#   bench/sqrt.sh compare SEED COUNT
set -eu

. "$(dirname "$0")/begin.sh"
staticlib bench_exports
compile sqrt sqrt.rs -l static=bench_exports
uptime
"$out/sqrt" "$@"
