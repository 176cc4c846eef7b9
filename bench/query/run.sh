#!/bin/bash
# Times the query for the files of a repository over 1,000 to 8,000 files of 10 bytes whose journal is written here: 40 queries,
# less the time of opening the repository alone. Each line is the time of a row of an answer, against the line before: 1 where
# an answer's time grows with its rows alone.
#
#     bench/query/run.sh [--quick]      up to 2,000 files
. "$(dirname "$0")/../lib.sh"
program=$(repository_program)
python3 "$bench/query/times.py" "$program" "$work" "$@"
