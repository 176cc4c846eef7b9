#!/bin/bash
# Times the program on a real folder: deploys of 1 KiB, each a new content over 100 names, against a C loop of the same writes
# and syncs; fetches of a file of 1 KiB; the opening of journals of 10,000 and 100,000 records; and the fetch of a content of
# 64 MiB with the memory that it takes. Runs that are compared alternate, and the least time of each counts.
#
#     bench/replay/run.sh [--quick]      fewer of each; TMPDIR names the device
. "$(dirname "$0")/../lib.sh"
program=$(repository_program)
cc -O2 -o "$work/loop" "$bench/replay/loop.c"
python3 "$bench/replay/times.py" "$program" "$work" "$@"
