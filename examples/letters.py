"""Renders letters by the binding for Python on Dask's scheduler: `letters.py COUNT FOLDER [--kill]`, over two workers of one thread.
Each worker process keeps a set of templates that is parsed once. A part is PART letters, one task and one file, which is moved to its
name when it is whole: rendering is pure, so a part that is done twice is the same. With --kill one worker is killed on the way; Dask
starts another and gives it the parts that were lost."""
import functools
import hashlib
import os
import signal
import sys
import time

import tmpl
from distributed import Client, as_completed

PART = 5000
LETTER = "Dear {{.name}},\n{{if lt .balance 0}}you owe us {{slice (print .balance) 1}}{{else}}you have {{.balance}}{{end}} euros.\n"


@functools.lru_cache(maxsize=None)
def templates():
    """The set of this process."""
    return tmpl.Templates({"letter.tmpl": LETTER})


def letters(first, end):
    """Letters of these numbers."""
    accounts = ({"name": f"Customer {it}", "balance": it * 7919 % 2000 - 1000} for it in range(first, end))
    return b"".join(templates().render_bytes(data=it) for it in accounts)


def part(first, end, folder):
    """Writes a part; its number of letters, and its hash."""
    text = letters(first, end)
    path = f"{folder}/{first:09}.txt"
    with open(f"{path}.{os.getpid()}", "wb") as it:
        it.write(text)
    os.replace(f"{path}.{os.getpid()}", path)
    return first, end - first, hashlib.sha256(text).hexdigest()


def main(count, folder, *options):
    os.makedirs(folder, exist_ok=True)
    begun = time.time()
    with Client(n_workers=2, threads_per_worker=1, dashboard_address=None) as client:
        workers = list(client.run(os.getpid).values())
        tasks = [client.submit(part, at, min(at + PART, count), folder, pure=False) for at in range(0, count, PART)]
        results = []
        for done in as_completed(tasks):
            results.append(done.result())
            if len(results) == max(1, len(tasks) // 4) and "--kill" in options:
                os.kill(workers[0], signal.SIGKILL)
    told = hashlib.sha256("".join(it[2] for it in sorted(results)).encode()).hexdigest()
    print(f"{sum(it[1] for it in results)} letters, {told[:16]}")
    print(f"{time.time() - begun:.1f} seconds", file=sys.stderr)


if __name__ == "__main__":
    main(int(sys.argv[1]), *sys.argv[2:])
