"""Times changes of many edits as bytes, by the program of this bench."""
import re
import sys

from lib import check, end, line, told

ITEMS, BUILDS = [25_000, 50_000, 100_000, 200_000], [12_500, 25_000, 50_000, 100_000]
# Eight times as many edits, where linear time is 8 times as long and quadratic time 64 times.
GROWTH = 32
# Reading against writing.
READING = 8
# The refusal of a claim against the reading of as many items as stand there.
REFUSING = 2
REFUSED = re.compile(r"(\d+) items of 4294967295 claimed: no change, (\d+) us")
LINE = re.compile(r"(\d+) (items|builds), \d+ bytes: decode (\d+) us, encode (\d+) us, the same true")


def run(program):
    """the microseconds of each step by its name, kind and number of edits, when the answers are right"""
    times = {}
    for text in told([program]).splitlines():
        if found := REFUSED.fullmatch(text):
            times["refuse", "items", int(found[1])] = int(found[2])
        else:
            found = LINE.fullmatch(text)
            check(found, f"a wrong answer: {text}")
            for step, took in zip(("decode", "encode"), found.groups()[2:]):
                times[step, found[2], int(found[1])] = int(took)
    wanted = [("refuse", "items", n) for n in (1, 100_000)]
    wanted += [(step, kind, n) for kind, counts in (("items", ITEMS), ("builds", BUILDS)) for n in counts for step in ("decode", "encode")]
    check(sorted(times) == sorted(wanted), "a line is missing")
    return times


def main():
    runs = [run(sys.argv[1]) for _ in range(1 if "--quick" in sys.argv else 3)]
    times = {name: min(it[name] for it in runs) for name in runs[0]}
    for kind, counts in (("items", ITEMS), ("builds", BUILDS)):
        few, many = counts[0], counts[-1]
        for step in ("decode", "encode"):
            took = times[step, kind, many]
            line(f"{step} of {many} {kind}", took / 1e6, f"{few} of them", took / times[step, kind, few], GROWTH)
        read, written = times["decode", kind, many], times["encode", kind, many]
        line(f"decode of {many} {kind}", read / 1e6, "encode of them", read / written, READING)
    refused = times["refuse", "items", 100_000]
    line("4,294,967,295 items are claimed and 100,000 there", refused / 1e6, "decode of 100,000", refused / times["decode", "items", 100_000], REFUSING)
    line("4,294,967,295 items are claimed and 1 there", times["refuse", "items", 1] / 1e6)
    end()


main()
