#!/bin/bash
# Times `parse`, `type_query` and `print` on queries of 8 KiB up to the longest that there may be, of 64 KiB: many short
# members, one long text, one text of escapes alone, objects in lists as deep as they may stand, long paths, tests of one
# property, and an include with a sort. Linear time is 8 times as long on the longest as on the shortest, quadratic time 64
# times.
#
#     bench/aql/run.sh [--quick]      which changes nothing here
. "$(dirname "$0")/../lib.sh"
program=$(bench_program aql arti_aql_domains)
python3 "$bench/aql/times.py" "$program"
