#!/bin/sh
# Builds the C host over the static library liblines.a, and runs it on lines.
#
#   hosts/c/run.sh [LINES [REPLIES]]
#
# LINES is samples/moves.txt if not given. With REPLIES, what the host writes is
# compared with that file, with and without guard bytes. LIBRARY names another
# archive than target/staticlib/liblines.a.
set -eu

. "$(dirname "$0")/../library.sh"
cc -std=gnu11 -O2 -Wall -Wextra -I "$root/include" "$here/host.c" "$library" -o "$out/c_host"
run "$out/c_host" C outside
