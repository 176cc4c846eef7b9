"""Times the query for the files of a repository, over more and more of them."""
import json
import sys

from lib import Repository, answers, check, deploy, end, key, least, line, query

QUERIES = 40
ASKED = query(b'items.find({"repo":"generic-local"})')
CONTENT = b"0123456789"
# The time of a row against that of a row of half as many.
BOUND = 1.5


def names(files):
    return [b"f%d.bin" % i for i in range(files)]


def check_answers(bodies, files):
    """Each answer has each file once, as it was deployed."""
    check(all(it == bodies[0] for it in bodies), f"{files} files: the answers differ")
    rows = json.loads(bodies[0])["results"]
    check(sorted(row["name"] for row in rows) == sorted(name.decode() for name in names(files)), f"{files} files: {len(rows)} rows of others")
    for row in rows:
        check((row["repo"], row["path"], row["size"]) == ("generic-local", "a", len(CONTENT)), f"{files} files: a row is {row}")


def main():
    repository = Repository(*sys.argv[1:3])
    before = None
    for files in (1_000, 2_000) if "--quick" in sys.argv else (1_000, 2_000, 4_000, 8_000):
        repository.write([deploy(key(b"a", name), CONTENT) for name in names(files)], CONTENT)
        alone, _ = least(lambda: repository.run(b""))
        both, told = least(lambda: repository.run(ASKED * QUERIES))
        check_answers(answers(told, QUERIES, 200, f"{files} files"), files)
        check(both > alone, f"{files} files: the queries took no time beside the opening")
        row = (both - alone) / (files * QUERIES)
        line(
            f"a row of a query for {files} files, {len(told) / (both - alone) / 1e6:.0f} MB/s",
            row,
            "-" if before is None else f"a row of {files // 2}",
            None if before is None else row / before,
            None if before is None else BOUND,
        )
        before = row
    end()


main()
