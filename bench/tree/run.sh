#!/bin/bash
# Times a tree of 1,000, 10,000, 100,000 and 1,000,000 files in 64 folders: one put of a new key, one look-up by key, one rank,
# one removal of a new row and one of an old row, each over 1,000 of them, against the same at the first number of files; and one
# renaming, one move to another repository and one removal of an old folder with a 64th of all files. From 100,000 files on there
# is a line of memory: what a process with that many files takes more at most than one with half as many, for each file more.
#
#     bench/tree/run.sh [--quick] [FILES..]      --quick: 1,000 and 10,000
#     bench/tree/run.sh steps [FILES..]
#
# The second form counts the instructions of a look-up by key, of a rank, of one put of a new key and of one removal of the newest
# row in the place of their time, by valgrind. That is what they do, without what waiting for memory adds to it.
. "$(dirname "$0")/../lib.sh"
program=$(bench_program tree arti_rows arti_tree)
kind=times
case ${1-} in
steps)
    kind=steps
    shift
    [ "$#" -gt 0 ] || set -- 10000 1000000
    ;;
--quick)
    shift
    [ "$#" -gt 0 ] || set -- 1000 10000
    ;;
esac
[ "$#" -gt 0 ] || set -- 1000 10000 100000 1000000
python3 "$bench/tree/$kind.py" "$program" "$@"
