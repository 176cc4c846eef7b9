#!/bin/bash
# Times `decode` and `encode` on changes of many edits, items and builds: 8 times as many against the fewest, which is 8 times
# as long in linear time and 64 times in quadratic time, and reading against writing. Bytes that claim 4,294,967,295 edits and
# end early are refused in the time of what stands there.
#
#     bench/codec/run.sh [--quick]      once in the place of three times
. "$(dirname "$0")/../lib.sh"
program=$(bench_program codec arti_codec arti_rows)
python3 "$bench/codec/times.py" "$program" "$@"
