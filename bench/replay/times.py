"""Times deploys, fetches and openings over a real folder."""
import hashlib
import json
import os
import random
import subprocess
import sys

from lib import LIMIT, Repository, answers, check, deploy, download, end, get, key, least, line, put, query

IS_QUICK = "--quick" in sys.argv
COUNT, NAMES = 200 if IS_QUICK else 1_000, 100
RECORDS = 2_000 if IS_QUICK else 10_000
LARGE = 1 << (23 if IS_QUICK else 26)
# Deploys and fetches against a turn of the loop, a record among ten times as many, and the memory of these; the memory of a
# large fetch against that of a missing file, which is that of the program alone.
DEPLOY, FETCH, OPENING, ROWS, MEMORY = 1.3, 1.2, 2.5, 15, 1.5
rng = random.Random(1)


# ---- deploys, against the loop


def loop(work, folder, record, reply):
    """the microseconds of a turn of the loop that writes as many bytes for each deploy"""
    words = [os.path.join(work, "loop"), str(COUNT), str(record), str(reply)]
    done = subprocess.run(words, cwd=folder, stdout=subprocess.PIPE, stderr=subprocess.PIPE, timeout=LIMIT)
    check(done.returncode == 0 and len(done.stdout) == COUNT * reply, "the loop failed")
    check(os.path.getsize(os.path.join(folder, "1")) == 17 + COUNT * record, "the loop wrote another journal")
    return int(done.stderr) / COUNT


def check_deploys(repository, told, contents):
    """Each reply has the sum of its content, and the contents stand in their file."""
    bodies = answers(told, len(contents), 201, "deploys")
    for body, content in zip(bodies, contents):
        check(json.loads(body)["checksums"]["sha256"] == hashlib.sha256(content).hexdigest(), "a deploy tells another sum")
    check(repository.file("3") == b"".join(contents), "the contents aren't those that were deployed")


def deploys(repository, work):
    """the microseconds of a turn of the loop, against which fetches are held too"""
    contents = [rng.randbytes(1_024) for _ in range(COUNT)]
    requests = b"".join(put(b"a/f%d.bin" % (i % NAMES), content) for i, content in enumerate(contents))
    ours, loops = [], []
    for _ in range(3):
        repository.clear()
        start, _ = repository.run(b"")
        took, told = repository.run(requests)
        ours.append((took - start) / COUNT * 1e6)
        check_deploys(repository, told, contents)
        record = (len(repository.file("1")) - 17) // COUNT
        repository.clear()
        loops.append(loop(work, repository.folder, record, len(told) // COUNT))
    line("a deploy of 1 KiB", min(ours) / 1e6, "a C loop's writes and syncs", min(ours) / min(loops), DEPLOY)
    return min(loops)


# ---- fetches


def fetches(repository, turn):
    content = rng.randbytes(1_024)
    repository.clear()
    answers(repository.run(put(b"a/f.bin", content))[1], 1, 201, "the deploy")
    took, told = least(lambda: repository.run(get(b"a/f.bin") * COUNT))
    check(all(it == content for it in answers(told, COUNT, 200, "fetches")), "a fetch has another content")
    line("a fetch of 1 KiB", took / COUNT, "a turn of that loop", took / COUNT * 1e6 / turn, FETCH)


# ---- openings: half deploys over a tenth as many names, half downloads


def opened(repository, records):
    """the seconds and the memory that a run without work takes over so many records, when it knows their files"""
    names = records // 10
    order = list(range(names))
    rng.shuffle(order)
    keys = [key(b"a/%d" % (i % 100), b"f%d.bin" % i) for i in range(names)]
    content = rng.randbytes(10)
    whole = [deploy(it, content) for it in keys]
    edits = [whole[order[i % names]] if i < records // 2 else download(keys[order[i % names]]) for i in range(records)]
    repository.write(edits, content)
    took, _ = least(lambda: repository.run(b""))
    memory = repository.memory(get(b"none"))
    _, told = repository.run(query(b'items.find({"repo":"generic-local"})'))
    rows = json.loads(answers(told, 1, 200, "the query")[0])["results"]
    check(sorted(row["name"] for row in rows) == sorted(f"f{i}.bin" for i in range(names)), f"{records} records: {len(rows)} files")
    return took, memory


def openings(repository):
    few, few_memory = opened(repository, RECORDS)
    many, many_memory = opened(repository, 10 * RECORDS)
    line(f"a record is opened, of {10 * RECORDS}", many / (10 * RECORDS), f"of {RECORDS}", many / few / 10, OPENING)
    line(f"memory of {10 * RECORDS} records", f"{many_memory:.1f} MiB", f"{RECORDS} records: {few_memory:.1f} MiB", many_memory / few_memory, ROWS)


# ---- a large content


def large_fetch(repository):
    content = rng.randbytes(LARGE)
    repository.clear()
    answers(repository.run(put(b"large.bin", content))[1], 1, 201, "the large deploy")
    took, told = least(lambda: repository.run(get(b"large.bin")))
    check(answers(told, 1, 200, "the large fetch") == [content], "the large fetch has another content")
    line(f"a fetch of {LARGE >> 20} MiB, {len(told) / took / 1e6:.0f} MB/s", took)
    memory, least_memory = repository.memory(get(b"large.bin")), repository.memory(get(b"none"))
    line("memory of that fetch", f"{memory:.1f} MiB", f"a missing file: {least_memory:.1f} MiB", memory / least_memory, MEMORY)


def main():
    work = sys.argv[2]
    repository = Repository(*sys.argv[1:3])
    turn = deploys(repository, work)
    fetches(repository, turn)
    openings(repository)
    large_fetch(repository)
    end()


main()
