"""Times contents, by the program of this bench and by the system's sums."""
import os
import re
import sys
import time

from lib import check, end, line, told

SIZE = 1 << 28
SMALL = [25_000, 50_000, 100_000, 200_000]
# A content of 256 MiB against the sums of the same file, first and again.
STAGING, COMPARING = 1.3, 1.3
# Eight times as many small contents.
GROWTH = 16
LARGE = re.compile(r"256 MiB: fresh true (\d+) us, again false (\d+) us")
LINE = re.compile(r"(\d+) contents of eight bytes: fresh (\d+) (\d+) us")


def sums(path):
    """how long three programs take for the three digests of a file, and what they tell"""
    start = time.perf_counter()
    digests = [told([name, path]).split()[0] for name in ("sha256sum", "sha1sum", "md5sum")]
    return time.perf_counter() - start, digests


def write_content(path):
    with open(path, "wb") as out:
        for _ in range(SIZE >> 16):
            out.write(b"\7" * 65_536)


def run(program, folder):
    """the seconds of the large content, first and again, and of the small ones, when the answers are right"""
    os.mkdir(folder)
    large, *rest = told([os.path.abspath(program)], cwd=folder).splitlines()
    found = LARGE.fullmatch(large)
    check(found, f"a wrong answer: {large}")
    small = []
    for count, text in zip(SMALL, rest, strict=True):
        numbers = LINE.fullmatch(text)
        check(numbers and int(numbers[1]) == int(numbers[2]) == count, f"a wrong answer: {text}")
        small.append(int(numbers[3]) / 1e6)
    return int(found[1]) / 1e6, int(found[2]) / 1e6, small


def main():
    program, work = sys.argv[1:]
    content = os.path.join(work, "content")
    write_content(content)
    by_sums, digests = sums(content)
    first, again, small = run(program, os.path.join(work, "folder"))
    # What is kept is the content; behind it may stand what was staged again.
    kept = os.path.join(work, "folder", "3")
    check(os.path.getsize(kept) >= SIZE, "the content isn't kept")
    os.truncate(kept, SIZE)
    later, kept_digests = sums(kept)
    check(kept_digests == digests, "another content is kept")
    by_sums = min(by_sums, later)
    line("256 MiB are staged and kept", first, "sha256sum, sha1sum, md5sum", first / by_sums, STAGING)
    line("256 MiB are staged again", again, "sha256sum, sha1sum, md5sum", again / by_sums, COMPARING)
    line("200,000 contents of eight bytes", small[-1], "25,000 of them", small[-1] / small[0], GROWTH)
    end()


main()
