"""Kills the program under load, and compares what is left with what it acknowledged."""
import random
import sys
import threading
import time
from contextlib import suppress
from subprocess import PIPE

from lib import Repository, check, child, end, get, line, put, replies_in

NAMES = 40


def path(name):
    return b"k/f%d" % name


def some_requests(rng):
    """names, each with the content that is deployed to it, or None where it is fetched"""
    asked = []
    for _ in range(2_000):
        is_deploy = rng.random() < 0.7
        content = rng.randbytes(rng.choice([0, 3, 200, 1_024, 70_000])) if is_deploy else None
        asked.append((rng.randrange(NAMES), content))
    return asked


def killed(repository, asked, seconds):
    """the bytes that a run told until it was killed, after so many seconds"""
    run = child(repository.words, stdin=PIPE, stdout=PIPE)
    told = bytearray()

    def send():
        with suppress(BrokenPipeError):
            for name, content in asked:
                run.stdin.write(get(path(name)) if content is None else put(path(name), content))
        with suppress(BrokenPipeError):
            run.stdin.close()

    def hear():
        while piece := run.stdout.read1(65_536):
            told.extend(piece)

    threads = [threading.Thread(target=send), threading.Thread(target=hear)]
    for thread in threads:
        thread.start()
    time.sleep(seconds)
    run.kill()
    for thread in threads:
        thread.join()
    run.wait()
    return told


def left(repository):
    """what each name holds, read by a run of its own"""
    _, told = repository.run(b"".join(get(path(name)) for name in range(NAMES)))
    replies, has_more = replies_in(told)
    check(len(replies) == NAMES and not has_more, f"{len(replies)} replies to {NAMES} fetches")
    check(all(status in (200, 404) for status, _ in replies), "a fetch has another status than 200 and 404")
    return [content if status == 200 else None for status, content in replies]


def kill_once(repository, rng, may, where):
    """What each name holds after a kill, how many deploys were acknowledged, and whether one more is there. `may` has what each name may hold before."""
    asked = some_requests(rng)
    told = killed(repository, asked, rng.random() ** 2 * 0.4)
    replies, has_more = replies_in(told)
    acknowledged = 0
    # The first byte of a reply acknowledges its deploy.
    for (name, content), reply in zip(asked, replies + [None] * has_more):
        if content is not None:
            check(reply is None or reply[0] == 201, f"{where}: a deploy has the status {reply and reply[0]}")
            may[name] = {content}
            acknowledged += 1
        elif reply is not None:
            check((reply[1] if reply[0] == 200 else None) in may[name], f"{where}: a fetch answered other bytes")
    done = len(replies) + has_more
    name, content = asked[done] if done < len(asked) else (0, None)
    if content is not None:
        may[name] = may[name] | {content}
    now = left(repository)
    for other in range(NAMES):
        check(now[other] in may[other], f"{where}: f{other} is lost or torn")
    return now, acknowledged, content is not None and now[name] == content


def main():
    rounds, seed = int(sys.argv[3]), int(sys.argv[4])
    rng = random.Random(seed)
    repository = Repository(*sys.argv[1:3])
    start = time.perf_counter()
    now = [None] * NAMES
    deploys = more = 0
    for number in range(rounds):
        now, acknowledged, has_one_more = kill_once(repository, rng, [{it} for it in now], f"round {number}, seed {seed}")
        deploys += acknowledged
        more += has_one_more
    check(deploys > 0, "no deploy was acknowledged before a kill")
    took = time.perf_counter() - start
    line(f"{rounds} kills over {deploys} deploys, none lost, {more} one more", took)
    end()


main()
