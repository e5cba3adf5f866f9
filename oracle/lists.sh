#!/bin/sh
# Writes every list into DIR, as NAME.stdin and NAME.stdout.
#
#   oracle/lists.sh DIR [SEED]
set -eu

here=$(cd "$(dirname "$0")" && pwd)
out=$(dirname "$here")/target/oracle
dir=$1
seed=${2:-1}
package=libpython3.11-testsuite

mkdir -p "$dir"
list() {
    "$out/lists" "$1" "$seed" "$2" "$dir/$1.stdin" "$dir/$1.stdout"
}
list sqrt 5000
list roots 4000
list integrate 2000
list profile 2000
list kind00 3000
list shapes 4000
list causes 3000
list rest 1000
list broken 1000

# The published square roots come with CPython's tests.
if [ ! -f /usr/lib/python3.11/test/cmath_testcases.txt ]; then
    apt-get update
    apt-get install -y "$package"
fi
list cmath 0
echo "CPython, Lib/test/cmath_testcases.txt, the sqrt cases of real arguments not below zero;" \
    "Debian $package $(dpkg-query -W -f '${Version}' "$package")" > "$dir/cmath.source"
