#!/bin/bash
# What the program does with a folder before its first reply, and with a second program. It ends with status 1 at the first
# case that doesn't hold.
# 1. A folder and the files in it reach the device before the first reply of a run: those of a run that ended, and those that
#    a killed run left. The run is killed at each of its syncs in turn. Seen by strace; skipped where that is missing.
# 2. Two programs on one folder: the second ends with status 4 and leaves the files, and the first goes on; once it has
#    ended, or was killed, the next has the folder.
# 3. Standard streams that are closed: no reply gets into a file.
#
#     bench/sync/run.sh [--quick]      which changes nothing here
. "$(dirname "$0")/../lib.sh"
program=$(repository_program)
python3 "$bench/sync/checks.py" "$program" "$(realpath "$work")"
