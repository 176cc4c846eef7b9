"""Times calls among more and more files, and tells the memory of a file."""
import os
import sys
from subprocess import PIPE

from lib import check, child, end, line

# What the program times: 1,000 calls each, and changes of a folder.
CALLS = {"put": "put", "get": "get", "rank": "rank", "remove_new": "remove the newest", "remove_old": "remove an old one"}
FOLDERS = {"rename": "rename", "move": "move", "remove_folder": "remove"}
# A call at so many files against one at 1,000: waiting for memory grows, and a step for each file would be far above. The removal
# of an old one moves the ids behind it.
BOUNDS = {
    "put": {10_000: 4, 100_000: 10, 1_000_000: 20},
    "get": {10_000: 4, 100_000: 10, 1_000_000: 20},
    "rank": {10_000: 4, 100_000: 10, 1_000_000: 20},
    "remove the newest": {10_000: 4, 100_000: 10, 1_000_000: 20},
}
# The seconds that one removal of an old row may take, and one change of a folder with a 64th of the files.
OLD, FOLDER = 0.0005, 0.2


def run(program, files):
    """the seconds of each call and of the changes of a folder, and the most memory that it took, in bytes"""
    started = child((program, str(files)), stdout=PIPE)
    told = [it.split() for it in started.stdout.read().decode().splitlines()]
    _, status, usage = os.wait4(started.pid, 0)
    check(status == 0, f"the program ended with status {status}")
    check(all(good == "true" for _, _, good in told), f"{files} files: a call or a change of a folder didn't do what it should: {told}")
    took = {name: int(nanoseconds) / 1e9 for name, nanoseconds, _ in told}
    calls = {name: took[it] / 1_000 for it, name in CALLS.items()}
    return calls, {name: took[it] for it, name in FOLDERS.items()}, usage.ru_maxrss * 1024


def times_of(program, files):
    """the least of three runs, for each"""
    runs = [run(program, files) for _ in range(3)]
    calls, folders = ({name: min(it[part][name] for it in runs) for name in runs[0][part]} for part in (0, 1))
    return calls, folders, runs[0][2]


def main():
    program, first = sys.argv[1], None
    sizes = [int(it) for it in sys.argv[2:]]
    for files in sizes:
        calls, folders, memory = times_of(program, files)
        for name, took in calls.items():
            case = f"{name} among {files} files"
            if first is None:
                line(case, took)
            elif name in BOUNDS:
                line(case, took, f"among {sizes[0]} files", took / first[name], BOUNDS[name].get(files))
            else:
                line(case, took, "0.5 ms", took / OLD, 1)
        first = first or calls
        for name, took in folders.items():
            line(f"{name} a folder of {files // 64} of {files} files", took, "200 ms", took / FOLDER, 1)
        if files >= 100_000:
            half = files // 2
            line(f"memory of each of {files} files", f"{(memory - run(program, half)[2]) / (files - half):.0f} B")
    end()


main()
