"""Times patterns on texts, by the program of this bench."""
import re
import sys

from lib import check, end, line, told

# So many stars on four times as many letters, against a sixteenth of both; quadratic time would be 256 times as long.
GROWTH = {"wild": 32, "ant": 32, "one star": 500, "captures": 500}
# 1,000 stars on 100,000 bytes, against wild.
LONG = {"one star": 2_000, "ant": 10, "captures": 400}
# The one text that the pattern fits is that with placeholders.
ANSWERS = {"wild": "false", "one star": "false", "ant": "false", "captures": "true"}
PARTS = ", ".join(rf"{name}\D*(?: \d+ letters)? (true|false) (\d+) us" for name in ANSWERS)
LINE = re.compile(rf"(\d+) stars on (\d+) times four letters: {PARTS}")


def run(program):
    """the microseconds of each call by stars and fours, when the answers are right"""
    times = {}
    for text in told([program]).splitlines():
        found = LINE.fullmatch(text)
        check(found, f"a wrong answer: {text}")
        stars, fours, *rest = found.groups()
        for name, answer in zip(ANSWERS, rest[::2]):
            check(answer == ANSWERS[name], f"{text}: {name} must be {ANSWERS[name]}")
        times[int(stars), int(fours)] = dict(zip(ANSWERS, map(int, rest[1::2])))
    return times


def main():
    runs = [run(sys.argv[1]) for _ in range(3)]
    times = {size: {name: min(it[size][name] for it in runs) for name in ANSWERS} for size in runs[0]}
    few, many, long = times[100, 100], times[1600, 1600], times[1000, 25_000]
    for name, bound in GROWTH.items():
        line(f"{name}, 1,600 on 6,400 bytes", many[name] / 1e6, "100 on 400 bytes", many[name] / max(few[name], 1), bound)
    for name, bound in LONG.items():
        line(f"{name}, 1,000 on 100,000 bytes", long[name] / 1e6, "wild with 1,000 stars", long[name] / max(long["wild"], 1), bound)
    end()


main()
