#!/bin/bash
# Times contents over a real folder: 256 MiB staged in pieces of 64 KiB, and the same staged again, which compares it with the
# kept one, against the time that sha256sum, sha1sum and md5sum together take for the same file; then, over a ground in memory,
# 200,000 small contents, each kept, against 25,000: linear time is 8 times as long, quadratic time 64 times.
#
#     bench/blobs/run.sh [--quick]      which changes nothing here; TMPDIR names the device
. "$(dirname "$0")/../lib.sh"
program=$(bench_program blobs arti_blobs arti_ground arti_host)
python3 "$bench/blobs/times.py" "$program" "$work"
