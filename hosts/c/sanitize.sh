#!/bin/sh
# Calls the entry with all lent sizes around 0, the reply's and the longest reply's,
# under the address and undefined-behaviour sanitizers and, where it is installed,
# under valgrind.
#
#   hosts/c/sanitize.sh [LINES]
#
# LINES is samples/moves.txt if not given. LIBRARY names another archive than
# target/staticlib/liblines.a. The sanitizers watch the host's side and the memory
# that it lends; valgrind watches the library's own code as well.
set -eu

. "$(dirname "$0")/../library.sh"
cc -std=gnu11 -O1 -g -Wall -Wextra -fsanitize=address,undefined -fno-sanitize-recover=all \
    -I "$root/include" "$here/sizes.c" "$library" -o "$out/sizes_sanitized"
"$out/sizes_sanitized" < "$lines"
if command -v valgrind > /dev/null; then
    cc -std=gnu11 -O1 -g -I "$root/include" "$here/sizes.c" "$library" -o "$out/sizes"
    valgrind --quiet --error-exitcode=1 "$out/sizes" < "$lines"
fi
