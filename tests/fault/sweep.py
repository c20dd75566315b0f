"""Runs the program over each small row with each of its allocations refused in turn. Each run must answer as the row does, or put out
nothing and end with status 7 and its line. So also the printing of each small set of the rows, which must come to what reading.py tells.
TMPL=PATH names another build."""
import copy
import os
import subprocess
import sys
import tempfile

from tests.check import printing
from tests.lib import harness
from tests.lib.harness import build_shim

SMALL = 4096  # bytes in the files and the output of a row, but for worked ones
WORKED = "worked: "
MOST = 100000  # allocations of one run
LITTLE = 150  # bytes in the files of a set that is printed
LEAST = {"rows": 91400, "printed sets": 55400}  # allocations of all


def refusing(number, shim, once):
    """What once gives where the allocation of that number is refused, and whether there was one."""
    read, write = os.pipe()
    try:
        got = once({"LD_PRELOAD": shim, "FAIL_ALLOC": str(number), "FAIL_FD": str(write)}, (write,))
    finally:
        os.close(write)
        with os.fdopen(read, "rb") as it:
            refused = bool(it.read())
    return got, refused


def sweep(shim, once, wrong):
    """Refuses each allocation in turn: how many there were, and the first that led to something wrong."""
    for number in range(1, MOST):
        try:
            got, refused = refusing(number, shim, once)
        except (subprocess.TimeoutExpired, harness.Late):
            return number, [f"    with allocation {number} refused it had not ended after {harness.SECONDS} seconds"]
        said = wrong(got, refused)
        if said:
            return number, [f"    with {f'allocation {number}' if refused else 'none'} refused", *said]
        if not refused:
            # a sweep in which nothing was refused would show nothing
            return number - 1, [] if number > 1 else ["    no allocation was refused"]
    return MOST, ["    its allocations do not end"]


def sweep_row(row):
    """How often an allocation of the row was refused, and what was wrong first. One process makes them all: the shim copies
    it for each. What stands in a pipe is read once, so where there is one each is refused in a process of its own."""
    RUNNER.lay_row(row)
    memory = (7, b"", b"tmpl: out of memory\n" if row.stderr == "pipe" else b"")

    def wrong(got, refused):
        return [] if refused and got == memory else harness.differences(row, got)

    if row.stdin is not None:
        return (row.name, *sweep(SHIM, lambda *how: harness.run(row, RUNNER.held.name, *how), wrong))
    try:
        got = RUNNER.run_row(row, {"LD_PRELOAD": SHIM, "FAIL_EACH": str(RUNNER.told)})
    except harness.Late:
        return row.name, 0, [f"    it had not ended after {harness.SECONDS} seconds"]
    came = [(f"allocation {number} refused", wrong(its, True)) for number, its, _ in RUNNER.turns()]
    said = [[f"    with {how}", *its] for how, its in [("none refused", wrong(got, False)), *came] if its]
    # a sweep in which nothing was refused would show nothing
    return row.name, len(came), said[0] if said else [] if came else ["    no allocation was refused"]


def printed(rows):
    """Each small set of files of the rows once, as a row that prints it."""
    seen = set()
    for row in rows:
        case = printing.of_row(row) if row.status in (0, 1, 4) else None
        files = tuple((path, case.files[path]) for path in case.paths) if case else ()
        if not files or files in seen or sum(len(what) for _, what in files) > LITTLE:
            continue
        seen.add(files)
        it = copy.copy(row)
        it.name, it.words, it.files = f"{row.name}, printed", [b"--print", b"--", *case.paths], {os.fsdecode(path): what for path, what in files}
        it.status, it.out, it.err = case.wanted()
        yield it


def refused(rows):
    """Each row whose words are refused or of which a FILE is missing, with the option to print: it comes to the same, since that is
    looked at before what is printed."""
    for row in rows:
        paths = harness.parted(row.words)[1] if row.status == 3 and b"--print" not in row.words else []
        if row.status == 2 or row.err in [b"tmpl: %b: no such file\n" % path for path in paths]:
            it = copy.copy(row)
            it.name, it.words = f"{row.name}, printed", [b"--print", *row.words]
            yield it


def start():
    global RUNNER
    RUNNER = harness.Runner()


def main():
    global SHIM
    if not harness.is_built():
        return harness.closing(0, 1)
    rows = [it for it in harness.read_rows() if it.is_plain() and it.is_again() and (it.size() <= SMALL or it.name.startswith(WORKED))]
    passed = failed = 0
    with tempfile.TemporaryDirectory() as folder:
        SHIM = f"{folder}/fail_alloc.so"
        build_shim("fail_alloc.c", SHIM)
        for name, its in (("rows", rows), ("printed sets", [*printed(rows), *refused(rows)])):
            right, wrong, runs = harness.tally(harness.in_processes(sweep_row, its, start, 10))
            passed, failed = passed + right, failed + wrong
            failed += harness.too_few(f"allocations of {len(its)} {name} were refused, one in each run", runs, LEAST[name])
    return harness.closing(passed, failed)


if __name__ == "__main__":
    sys.exit(main())
