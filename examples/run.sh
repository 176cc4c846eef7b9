#!/usr/bin/env bash
# Plays each recorded list of this folder to the program, over a new folder, and compares what it answers with what it should.
#
#     examples/run.sh [PROGRAM]      PROGRAM is crates/arti_main/out/arti_main, which ./arti and the gate build, where none is named
#
# A line for each list; the last line is 'examples: N passed, M failed', and the status is 1 where one failed.
set -u
here=$(cd "$(dirname "${BASH_SOURCE[0]}")" && pwd) || exit 1
program=${1:-"$here/../crates/arti_main/out/arti_main"}
if [ ! -x "$program" ]; then
    echo "examples: there is no program $program; ./arti builds it" >&2
    exit 1
fi
folder=$(mktemp -d) || exit 1
trap 'rm -rf "$folder"' EXIT
passed=0
failed=0
# 2020-01-01T00:00:00.000Z
start=1577836800000
for list in "$here"/*/requests; do
    example=$(dirname "$list")
    name=$(basename "$example")
    mkdir "$folder/$name"
    "$program" "$folder/$name" replay --start "$start" <"$list" >"$folder/replies"
    status=$?
    if [ "$status" -eq 0 ] && cmp -s "$folder/replies" "$example/replies"; then
        echo "example $name: as it should be"
        passed=$((passed + 1))
    else
        echo "example $name: status $status, and its replies are$(cmp "$folder/replies" "$example/replies" 2>&1 | sed 's/^/ /;1q')"
        failed=$((failed + 1))
    fi
done
echo "examples: $passed passed, $failed failed"
[ "$failed" -eq 0 ] && [ "$passed" -gt 0 ]
