#!/bin/bash
# Runs the benches that are named, or all, one after the other, and prints a table: what was timed, its time, what that is held
# against, the ratio of the two, the bound of the ratio, and whether it is kept. Each bench checks the answers that it times.
# The lines are appended to bench/results.tsv too, each behind its moment, commit, kit, number of processors and sizes.
#
#     bench/run.sh [--quick] [NAME ..]      a NAME is a folder beside this file; --quick takes smaller sizes
#
# The status is 1 where a line is past its bound, an answer is wrong or a bench fails, and 2 where no bench has a NAME. A program
# is proved and built when a bench first needs it, which can take an hour. TMPDIR names the device that is timed.
set -u -o pipefail
bench=$(cd "$(dirname "${BASH_SOURCE[0]}")" && pwd) || exit 1
# The seconds that a bench may take, with the building of its program.
limit=14400
quick=
names=()
for word in "$@"; do
    if [ "$word" = --quick ]; then
        quick=--quick
    elif [[ $word =~ ^[a-z]+$ ]] && [ -x "$bench/$word/run.sh" ]; then
        names+=("$word")
    else
        echo "bench: no bench is called $word" >&2
        exit 2
    fi
done
if [ "${#names[@]}" -eq 0 ]; then
    for script in "$bench"/*/run.sh; do
        names+=("$(basename "$(dirname "$script")")")
    done
fi
commit=$(git -C "$bench" describe --always --dirty --exclude='*') || exit 1
export BENCH_RESULTS="$bench/results.tsv" BENCH_RUN
BENCH_RUN=$(printf '%s\t%s\t%s\t%s\t%s' "$(date -u +%FT%TZ)" "$commit" "$(rt version)" "$(nproc)" "${quick:+quick}")

printf '%-8s %-56s %10s  %-36s %7s %7s\n' bench case time against ratio bound
failed=()
for name in "${names[@]}"; do
    timeout --foreground -k 10 "$limit" "$bench/$name/run.sh" ${quick:+"$quick"} || failed+=("$name")
done
echo "benches: $((${#names[@]} - ${#failed[@]})) as they should be, ${#failed[@]} past a bound or failed${failed[*]:+ (${failed[*]})}"
[ "${#failed[@]}" -eq 0 ]
