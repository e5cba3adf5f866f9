#!/bin/sh
# Times lines through the static library liblines.a beside that of another commit, and lines of kinds 11 to 15 beside
# the same lines of kinds 01 to 05.
#
#   bench/before.sh ARCHIVE SEED
#
# ARCHIVE is the other commit's liblines.a (there, `tools/make.sh library lines_c lines`; before the port to
# rattle-kit-13f, `rt staticlib lines` of rattle-kit-5b); kinds that it does not answer are left out. Where a library
# comes to lie in a program moves its time by up to two in a hundred, so there are two programs, with the two libraries
# in one order and in the other. Needs rt, rustc and objcopy.
set -eu

. "$(dirname "$0")/begin.sh"
need_oracle
staticlib lines_c lines

# renamed ARCHIVE NAME: the archive as libNAME.a, with NAME_counted for answer_counted.
renamed() {
    objcopy --redefine-sym answer_counted="$2_counted" --redefine-sym answer_line="$2_line" "$1" "$work/lib$2.a"
}

# pair FIRST SECOND WHICH: a program of both, in which the other commit's is the one that WHICH says, and its table.
pair() {
    renamed "$1" first
    renamed "$2" second
    compile before before.rs --extern cases="$oracle/libcases.rlib" -L native="$work"
    "$out/before" "$seed" "$3"
}
seed=$2
uptime
pair "$1" "$library" first
pair "$library" "$1" second
