#!/bin/bash
# Times `wild`, `ant` and `captures` on inputs on which a matcher that tries every split would not end: many stars on a
# long run of one letter, and no match at the end; and one star before a long part that nearly fits at each place. 1,600
# stars on 6,400 bytes are held against 100 on 400, for which linear time is 16 times as long and quadratic time 256 times;
# and all three at 1,000 stars on 100,000 bytes against `wild`.
#
#     bench/wild/run.sh [--quick]      which changes nothing here
. "$(dirname "$0")/../lib.sh"
program=$(bench_program wild arti_wild)
python3 "$bench/wild/times.py" "$program"
