"""What reaches the device before the first reply, two programs on one folder, and closed streams."""
import os
import re
import shutil
import subprocess
import sys
import time
from subprocess import PIPE

from lib import LIMIT, Repository, check, child, end, get, line, put

PUT, GET = put(b"a", b"abc"), get(b"a")


def files(repository):
    return {name: repository.file(name) for name in os.listdir(repository.folder)}


def run(repository, requests, before=()):
    return subprocess.run([*before, *repository.words], input=requests, stdout=PIPE, stderr=PIPE, timeout=LIMIT)


def deployed(repository):
    """A folder with the one deploy."""
    repository.clear()
    check(run(repository, PUT).returncode == 0, "the deploy failed")


# ---- what reaches the device before the first reply


def traced(repository, requests, *how):
    """the run, the paths that were synced before its first reply, and whether that came"""
    trace = repository.folder + ".trace"
    done = run(repository, requests, ["strace", "-f", "-y", "-e", "trace=fsync,fdatasync,write", *how, "-o", trace])
    synced = []
    with open(trace, errors="replace") as calls:
        for call in calls:
            if re.search(r"\bwrite\(1<", call):
                return done, synced, True
            if found := re.search(r"\b(?:fsync|fdatasync)\(\d+<([^>]*)>\) += 0", call):
                synced.append(found[1])
    return done, synced, False


def opens_well(repository, what):
    """A run on the folder as it stands: it answers, and before that all that is there has reached the device."""
    there = [repository.folder, *(os.path.join(repository.folder, name) for name in files(repository))]
    done, synced, has_replied = traced(repository, GET)
    check(done.returncode == 0 and has_replied, f"{what}: status {done.returncode}")
    for path in there:
        check(path in synced, f"{what}: {os.path.basename(path)} had no sync before the first reply")
    return done.stdout


def reach_the_device(repository):
    if not shutil.which("strace"):
        line("what reaches the device isn't seen: strace is missing", "-")
        return
    start = time.perf_counter()
    deployed(repository)
    check(b"\r\n\r\nabc" in opens_well(repository, "after a run"), "the deployed file isn't fetched")
    kills = 0
    while True:
        repository.clear()
        done, _, _ = traced(repository, PUT, "-e", f"inject=fsync,fdatasync:signal=KILL:when={kills + 1}")
        if done.returncode == 0:
            break
        kills += 1
        opens_well(repository, f"after a kill at sync {kills}")
    check(kills > 4, f"a run has {kills} syncs alone")
    line(f"all reaches the device first, after {kills} kills at a sync", time.perf_counter() - start)


# ---- two programs on one folder


def begun(repository, request):
    """a program that has answered a deploy and waits for the next request"""
    started = child(repository.words, stdin=PIPE, stdout=PIPE)
    started.stdin.write(request)
    started.stdin.flush()
    check(started.stdout.read1(65_536).startswith(b"HTTP/1.1 201 "), "the deploy failed")
    return started


def two_programs(repository):
    start = time.perf_counter()
    repository.clear()
    first = begun(repository, PUT)
    left = files(repository)
    second = run(repository, PUT)
    check(second.returncode == 4 and second.stdout == b"", f"the second program ended with status {second.returncode}")
    check(files(repository) == left, "the second program changed a file")
    told, _ = first.communicate(GET)
    check(first.returncode == 0 and b"\r\n\r\nabc" in told, "the first program didn't go on")
    check(run(repository, GET).stdout == told, "the folder isn't had after the end of the first program")
    first = begun(repository, PUT)
    first.kill()
    first.wait()
    check(run(repository, GET).stdout == told, "the folder isn't had after the kill of the first program")
    line("of two programs on a folder the second ends with status 4", time.perf_counter() - start)


# ---- closed streams


def closed_streams(repository):
    start = time.perf_counter()
    for closed, status in (("<&-", 6), (">&-", 5), ("<&- >&-", 6), ("<&- >&- 2>&-", 6)):
        deployed(repository)
        words = ["bash", "-c", f'"$@" {closed}', "", *repository.words]
        done = subprocess.run(words, input=GET, stdout=subprocess.DEVNULL, timeout=LIMIT)
        check(done.returncode == status, f"{closed}: status {done.returncode}")
        check(run(repository, GET).stdout.endswith(b"abc"), f"{closed}: the repository is damaged")
    line("with closed streams no reply gets into a file", time.perf_counter() - start)


def main():
    repository = Repository(*sys.argv[1:])
    reach_the_device(repository)
    two_programs(repository)
    closed_streams(repository)
    end()


main()
