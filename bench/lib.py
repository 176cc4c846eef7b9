"""What the benches share: lines of the table, timed runs, and repositories with their requests and replies."""
import hashlib
import os
import shutil
import struct
import subprocess
import sys
import threading
import time

# The seconds that a child may take. One that takes longer is killed, and its bench fails.
LIMIT = 900

has_past = False


def shown(seconds):
    """a time in the unit that suits it"""
    for unit, size in (("s", 1), ("ms", 1e-3), ("us", 1e-6)):
        if seconds >= size:
            break
    else:
        unit, size = "ns", 1e-9
    value = seconds / size
    return f"{value:.0f} {unit}" if value >= 100 else f"{value:.3g} {unit}"


def line(case, took, against="-", ratio=None, bound=None):
    """A line of the table: what was timed, in seconds or as a text, what it is held against, the ratio of the two, and the bound of that."""
    global has_past
    is_past = bound is not None and ratio > bound
    has_past = has_past or is_past
    bench = os.path.basename(os.path.dirname(os.path.abspath(sys.argv[0])))
    columns = [case, took if isinstance(took, str) else shown(took), against]
    columns += ["-" if it is None else f"{it:.2f}" for it in (ratio, bound)]
    columns += ["past" if is_past else "ok"]
    print("{:<8} {:<56} {:>10}  {:<36} {:>7} {:>7}  {}".format(bench, *columns), flush=True)
    if results := os.environ.get("BENCH_RESULTS"):
        with open(results, "a") as out:
            out.write("\t".join([os.environ["BENCH_RUN"], bench, *columns]) + "\n")


def check(holds, what):
    """Ends the bench where an answer isn't what it must be."""
    if not holds:
        sys.exit(f"bench: {what}")


def end():
    """Ends a bench, with status 1 where a line was past its bound."""
    sys.exit(1 if has_past else 0)


def least(run, times=3):
    """what the quickest of some runs gave; each gives its time first"""
    return min((run() for _ in range(times)), key=lambda it: it[0])


def child(words, **how):
    """a process that is killed when its time is over"""
    made = subprocess.Popen(words, **how)
    timer = threading.Timer(LIMIT, made.kill)
    timer.daemon = True
    timer.start()
    return made


def told(words, **how):
    """what a program that must end with status 0 writes"""
    done = subprocess.run(words, stdout=subprocess.PIPE, timeout=LIMIT, **how)
    check(done.returncode == 0, f"{words[0]} ended with status {done.returncode}")
    return done.stdout.decode()


# ---- requests and replies


def put(path, content):
    return b"PUT /generic-local/%s HTTP/1.1\r\nHost: x\r\nContent-Length: %d\r\n\r\n" % (path, len(content)) + content


def get(path):
    return b"GET /generic-local/%s HTTP/1.1\r\nHost: x\r\n\r\n" % path


def query(text):
    return b"POST /api/search/aql HTTP/1.1\r\nHost: x\r\nContent-Length: %d\r\n\r\n" % len(text) + text


def reply_in(data, at):
    """where the reply at that place ends, its status and its body, or None where it isn't whole"""
    end = data.find(b"\r\n\r\n", at)
    if end < 0:
        return None
    head = data[at:end].split(b"\r\n")
    length = next(int(it.split(b":")[1]) for it in head if it.lower().startswith(b"content-length"))
    if len(data) < end + 4 + length:
        return None
    return end + 4 + length, int(head[0].split(b" ")[1]), bytes(data[end + 4 : end + 4 + length])


def replies_in(data):
    """status and body of each whole reply, and whether there is more"""
    at, replies = 0, []
    while (reply := reply_in(data, at)) is not None:
        at = reply[0]
        replies.append(reply[1:])
    return replies, len(data) > at


def answers(data, count, status, what):
    """the bodies of so many replies, each of which must have that status"""
    replies, has_more = replies_in(data)
    check(len(replies) == count and not has_more, f"{what}: {len(replies)} replies and not {count}")
    for got, _ in replies:
        check(got == status, f"{what}: a reply has the status {got} and not {status}")
    return [body for _, body in replies]


# ---- repositories, as docs/FORMATS.md has them


def text(value):
    return struct.pack(">H", len(value)) + value


def key(folder, name):
    return text(b"generic-local") + text(folder) + text(name)


def deploy(where, content):
    """the edit that deploys the content that stands first in the file of contents"""
    digests = b"".join(hashlib.new(name, content).digest() for name in ("md5", "sha1", "sha256"))
    return b"\3" + where + b"\0" + struct.pack(">QQ", 0, len(content)) + digests + b"\0\0"


def download(where):
    """the edit that counts one"""
    return b"\x09" + where


class Repository:
    """A folder, and the program that answers requests over it."""

    def __init__(self, program, work):
        self.folder = os.path.join(work, "repository")
        self.requests = os.path.join(work, "requests")
        self.replies = os.path.join(work, "replies")
        self.words = [program, self.folder, "replay", "--start", "0"]
        self.clear()

    def clear(self):
        shutil.rmtree(self.folder, ignore_errors=True)
        os.mkdir(self.folder)

    def file(self, name):
        with open(os.path.join(self.folder, name), "rb") as source:
            return source.read()

    def write(self, edits, content):
        """A change for each edit, at the moments 0, 1 and so on, and one content."""
        self.clear()
        with open(os.path.join(self.folder, "3"), "wb") as out:
            out.write(content)
        with open(os.path.join(self.folder, "1"), "wb") as out:
            out.write(b"ARTIJNL1\1\0\0\0\0\0\0\0")
            for moment, edit in enumerate(edits):
                body = struct.pack(">q", moment) + text(b"anonymous") + struct.pack(">I", 1) + edit
                out.write(b"\1" + struct.pack(">I", len(body)) + body)
            out.write(b"\0")

    def run(self, requests):
        """the seconds that a run over these requests takes, and its replies"""
        with open(self.requests, "wb") as out:
            out.write(requests)
        with open(self.requests, "rb") as source, open(self.replies, "wb") as sink:
            start = time.perf_counter()
            done = subprocess.run(self.words, stdin=source, stdout=sink, timeout=LIMIT)
            took = time.perf_counter() - start
        check(done.returncode == 0, f"a run ended with status {done.returncode}")
        with open(self.replies, "rb") as source:
            return took, source.read()

    def memory(self, request):
        """the most memory in MiB that a run takes until it has answered this request"""
        started = child(self.words, stdin=subprocess.PIPE, stdout=subprocess.PIPE)
        started.stdin.write(request)
        started.stdin.flush()
        replies = bytearray()
        while reply_in(replies, 0) is None:
            piece = started.stdout.read1(1 << 20)
            check(piece, "a run ended without an answer")
            replies.extend(piece)
        with open(f"/proc/{started.pid}/status") as status:
            peak = next(int(it.split()[1]) for it in status if it.startswith("VmHWM"))
        started.communicate()
        check(started.returncode == 0, f"a run ended with status {started.returncode}")
        return peak / 1024
