#!/bin/bash
# Kills the program with SIGKILL at random points while it answers deploys and fetches on a real folder, opens the folder
# again, and fetches every name: what is there must be the content of the last acknowledged deploy to that name, or one that
# was sent behind it. It tells how many kills there were, and how many of them left a deploy that wasn't acknowledged; it
# ends with status 1 at the first content that is lost or torn.
#
#     bench/kill/run.sh [--quick] [ROUNDS] [SEED]      100 rounds if none are given, with --quick 20, and a seed by the clock
. "$(dirname "$0")/../lib.sh"
rounds=100
if [ "${1-}" = --quick ]; then
    rounds=20
    shift
fi
program=$(repository_program)
python3 "$bench/kill/kills.py" "$program" "$work" "${1:-$rounds}" "${2:-$(date +%s)}"
