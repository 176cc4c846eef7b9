"""Times calls among more and more rows, and tells the memory of a row."""
import os
import re
import sys
from subprocess import PIPE

from lib import check, child, end, line

CALLS = 20_000
# A call at so many rows against one at 1,000: waiting for memory grows, and a step for each row would be far above.
BOUNDS = {
    "first set": {10_000: 2, 100_000: 3, 1_000_000: 4},
    "set": {10_000: 3, 100_000: 6, 1_000_000: 7},
    "with": {10_000: 3, 100_000: 9, 1_000_000: 18},
    "with_sha1": {10_000: 3, 100_000: 8, 1_000_000: 14},
    "drop_id": {10_000: 3, 100_000: 6, 1_000_000: 8},
}
# The bytes that a row may take, with digests and without.
WHOLE, BARE = 850, 700


def run(*words):
    """what a run of the program prints, and the most memory that it took, in bytes"""
    started = child(words, stdout=PIPE)
    told = started.stdout.read().decode()
    _, status, usage = os.wait4(started.pid, 0)
    check(status == 0, f"the program ended with status {status}")
    return told, usage.ru_maxrss * 1024


def a_row(program, kind, rows):
    half = rows // 2
    return (run(program, str(rows), kind)[1] - run(program, str(half), kind)[1]) / (rows - half)


def times_of(program, rows):
    """the nanoseconds of each call, when the answers are right"""
    told, _ = run(program, str(rows))
    numbers = {name: int(n) for name, n in re.findall(r"([a-z_0-9 ]+?) (\d+)(?:, |\n)", told)}
    check(numbers["pairs"] == 3, f"{rows} rows: a row has {numbers['pairs']} pairs")
    # Ten rows have the pair that is asked for, one has the digest, and none has it once it is dropped.
    for name, number in (("found", 10 * CALLS), ("found by digest", CALLS), ("left", 0)):
        check(numbers[name] == number, f"{rows} rows: {name} {numbers[name]} and not {number}")
    numbers["set"] -= numbers["making the pairs"]
    return numbers


def main():
    program, first = sys.argv[1], None
    sizes = [int(it) for it in sys.argv[2:]]
    for rows in sizes:
        times = times_of(program, rows)
        for name, bounds in BOUNDS.items():
            case, took = f"{name} among {rows} rows", times[name] / 1e9
            if first is None:
                line(case, took)
            else:
                line(case, took, f"among {sizes[0]} rows", times[name] / first[name], bounds.get(rows))
        first = first or times
        if rows >= 100_000:
            for kind, most in (("whole", WHOLE), ("bare", BARE)):
                size = a_row(program, kind, rows)
                line(f"memory of each of {rows} rows, {kind}", f"{size:.0f} B", f"{most} B", size / most, 1)
    end()


main()
