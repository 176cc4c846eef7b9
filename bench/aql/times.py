"""Times the reading, typing and printing of queries, by the program of this bench."""
import re
import sys

from lib import check, end, line, told

SIZES = [8_192, 16_384, 32_768, 65_536]
SHAPES = ["members", "one text", "escapes", "deep", "paths", "one property", "sorted"]
# Reading 64 KiB against 8 KiB, where linear time is 8 times as long, and typing and printing against reading.
GROWTH, TYPING, PRINTING = 16, 2, 1.2
LINE = re.compile(r"(.*): (\d+) bytes read in (\d+) us, typed in (\d+) us, printed as (\d+) bytes in (\d+) us")


def main():
    times = {}
    texts = told([sys.argv[1]]).splitlines()
    for size, shape, text in zip([it for it in SIZES for _ in SHAPES], SHAPES * len(SIZES), texts, strict=True):
        found = LINE.fullmatch(text)
        check(found, f"a wrong answer: {text}")
        name, length, read, typed, printed, written = found.groups()
        check(name == shape and size - 200 < int(length) <= size, f"{text}: this is no query of {size} bytes")
        # They are written as they are printed.
        check(printed == length, f"{text}: another query is printed")
        times[shape, size] = int(read), int(typed), int(written)
    for shape in SHAPES:
        (few, _, _), (read, typed, written) = times[shape, SIZES[0]], times[shape, SIZES[-1]]
        line(f"a query of 64 KiB is read, {shape}", read / 1e6, "one of 8 KiB", read / few, GROWTH)
        line(f"and typed, {shape}", typed / 1e6, "reading it", typed / read, TYPING)
        line(f"and printed, {shape}", written / 1e6, "reading it", written / read, PRINTING)
    end()


main()
