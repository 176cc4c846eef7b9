"""Counts the instructions of calls."""
import re
import subprocess
import sys
from functools import cache

from lib import LIMIT, check, end, line

# A thousand calls a turn, and ten turns more than once.
CALLS = 10_000
# Against the first number of files, which is a fraction of the others.
BOUND = 3
# The turns of gets, ranks, puts and removes of the newest rows: where they are counted, and what that is held against.
TURNS = {
    "get": ((11, 1, 1, 0), (1, 1, 1, 0)),
    "rank": ((1, 11, 1, 0), (1, 1, 1, 0)),
    "put": ((1, 1, 11, 0), (1, 1, 1, 0)),
    "remove the newest": ((1, 1, 11, 10), (1, 1, 11, 0)),
}


@cache
def count(program, files, turns):
    words = ["valgrind", "--tool=callgrind", "--callgrind-out-file=/dev/null", program, files, "turns", *map(str, turns)]
    done = subprocess.run(words, capture_output=True, text=True, timeout=LIMIT)
    check(done.returncode == 0 and done.stdout.split()[-1:] == ["true"], f"valgrind ended with status {done.returncode}")
    return int(re.search("Collected : ([0-9]+)", done.stderr)[1])


def main():
    program, sizes = sys.argv[1], sys.argv[2:]
    for name, (more, less) in TURNS.items():
        first = None
        for files in sizes:
            took = (count(program, files, more) - count(program, files, less)) // CALLS
            case = f"{name} among {files} files, instructions"
            if first is None:
                first = took
                line(case, str(took))
            else:
                line(case, str(took), f"among {sizes[0]} files", took / first, BOUND)
    end()


main()
