#!/bin/bash
# Times appends of bodies of 200 bytes to a journal on a real folder, against a C loop of the same writes and syncs. Each
# append is a write, a sync, a write of one byte and a sync. The runs alternate, and the least time of each counts.
#
#     bench/journal/run.sh [--quick]      which changes nothing here; TMPDIR names the device
. "$(dirname "$0")/../lib.sh"
program=$(bench_program journal arti_ground arti_journal arti_host)
cc -O2 -o "$work/loop" "$bench/journal/loop.c"
python3 "$bench/journal/times.py" "$program" "$work"
