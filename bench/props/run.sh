#!/bin/bash
# Times `set`, `with`, `with_sha1` and `drop_id` at 1,000, 10,000, 100,000 and 1,000,000 live rows, each with three pairs
# (one that a tenth of a per cent of the rows has, one that ten rows have, and one of its own) and digests of its own. The
# times are those of a call, over calls that change or ask other rows each time, against a call at the first number of rows; a
# `set` replaces a row and one of its pairs. From 100,000 rows on there are lines of memory: what a process with that many rows
# takes more at most than one with half as many, for each row more, with digests and without.
#
#     bench/props/run.sh [--quick] [ROWS..]      --quick: 1,000 and 10,000
#     bench/props/run.sh steps [ROWS..]
#
# The second form counts the instructions of `set`, `with` and `with_sha1` in the place of their time, by valgrind. That is
# what they do, without what waiting for memory adds to it.
. "$(dirname "$0")/../lib.sh"
program=$(bench_program props arti_rows arti_props)
kind=times
case ${1-} in
steps)
    kind=steps
    shift
    [ "$#" -gt 0 ] || set -- 1000 10000 100000
    ;;
--quick)
    shift
    [ "$#" -gt 0 ] || set -- 1000 10000
    ;;
esac
[ "$#" -gt 0 ] || set -- 1000 10000 100000 1000000
python3 "$bench/props/$kind.py" "$program" "$@"
