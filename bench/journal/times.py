"""Times the journal and the C loop in turn, and reads what they left."""
import os
import sys

from lib import check, end, line, told

COUNT = 1_000
# The header with its open gate, the records behind open gates, and a closed gate.
JOURNAL = b"ARTIJNL1\1\0\0\0\0\0\0\0" + (b"\1\0\0\0\xc8" + b"\7" * 200) * COUNT + b"\0"
# The appends against the loop.
BOUND = 1.3


def run(program, folder):
    """the microseconds that it says it took, and the file that it left"""
    os.makedirs(folder)
    took = int(told([os.path.abspath(program)], cwd=folder))
    with open(os.path.join(folder, "1"), "rb") as source:
        return took, source.read()


def main():
    program, work = sys.argv[1:]
    ours, loops = [], []
    for turn in range(3):
        took, left = run(program, os.path.join(work, f"journal{turn}"))
        check(left == JOURNAL, "the journal isn't that of the bodies")
        ours.append(took)
        took, left = run(os.path.join(work, "loop"), os.path.join(work, f"loop{turn}"))
        check(len(left) == len(JOURNAL), "the loop wrote another number of bytes")
        loops.append(took)
    line("an append of 200 bytes to a journal", min(ours) / COUNT / 1e6, "a C loop's writes and syncs", min(ours) / min(loops), BOUND)
    end()


main()
