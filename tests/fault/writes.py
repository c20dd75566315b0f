"""Runs the program over each row with short writes, and with each write refused in turn. A write takes 1, 3 or 4,096 bytes at most, and is
refused once and for good, by an error, by an interrupt, and by taking no byte; to its output, and to its errors. A short write must change
nothing. After a refused write of output nothing may be put out but the line, with status 6; after one of errors nothing at all, and the
status stays. Of a text of more than 65,536 bytes writes are refused by errors alone, and those of 1 byte once. Texts of more than 131,072
bytes, and those whose runs end with a hundred thousand templates inside one another, are put by 4,096 bytes. TMPL=PATH names another build.

`writes.py --long` puts these by 3 bytes and by 1 as well, which takes half an hour, most of it to give the cells of those templates back
after each refusal, and says of each how many writes were refused."""
import os
import struct
import sys
import tempfile
import time

from tests.lib import harness

FEW = 65536  # bytes up to which each write is refused in each way
MANY = 1 << 17  # bytes beyond which only long writes are refused in the gate
DEEP = b"100000"  # the depth whose cells take long to give back after a refusal
LEAST = 1660000  # refused writes
WAYS = ("by an error", "by an error for good", "by an interrupt", "by taking no byte")  # as fail_write.c has them
MOST = {1: 1, 3: 2, 4096: 4}  # the most bytes that a write takes, and in how many ways it is refused where the text is long
COUNT = struct.Struct("l")
LATE = 1 << 20  # seconds that a run may take: the shim ends one that does not end after a refusal
OUTPUT, ERRORS = 1, 2


def refused(row, descriptor, most, ways):
    """How often a write was refused, and what is wrong. One process makes all: after each refusal the shim puts back what was."""
    told = row.out if descriptor == OUTPUT else row.err
    wanted = (6, b"", b"tmpl: write failed\n") if descriptor == OUTPUT else (row.status, b"", b"")
    how = {"LD_PRELOAD": SHIM, "WRITE_TO": str(descriptor), "WRITE_MOST": str(most), "WRITE_EACH": str(RUNNER.told), "WRITE_WAYS": str(ways)}
    wrong = harness.differences(row, RUNNER.run_row(row, how))
    count = 0
    if told:
        (count,) = COUNT.unpack(os.pread(RUNNER.told, COUNT.size, 0))
        rest = harness.taken_from(RUNNER.told)[COUNT.size :]
        os.write(RUNNER.told, rest)
    for number, got, writes in RUNNER.turns():
        if got != wanted or writes != b"f":
            wrong.append(f"    write {number // len(WAYS)} refused {WAYS[number % len(WAYS)]}: {got}, {len(writes) - 1} writes after it")
    least = ways * -(-len(told) // most)
    if count < least or most == 1 and count != least:
        wrong.append(f"    {count} writes were refused, and {least} should have been")
    return count, [f"    with writes of {most} bytes to {descriptor}", *wrong] if wrong else []


def cases_of(row):
    """To which descriptor a row's writes are refused, by how many bytes and in how many ways. Where nothing is written one run shows it."""
    for descriptor, told in ((OUTPUT, row.out), (ERRORS, row.err)):
        for most, ways in MOST.items():
            if told or most == 1:
                yield row, descriptor, most, len(WAYS) if len(told) <= FEW else ways


def judge(case):
    """One row with writes of some length to one descriptor."""
    row, descriptor, most, _ = case
    begun = time.monotonic()
    RUNNER.lay_row(row)
    count, wrong = refused(*case)
    if is_long(row, most):
        print(f"{row.name}: {count} writes of {most} bytes to {descriptor} refused, {time.monotonic() - begun:.0f} s", flush=True)
    return row.name, count, wrong


def start():
    global RUNNER
    RUNNER = harness.Runner()


def is_long(row, most):
    """Whether short writes of the row are refused by hand alone."""
    return most < 4096 and (len(row.out) > MANY or len(row.out) > FEW and DEEP in row.words)


def main(*words):
    global SHIM
    if not harness.is_built():
        return harness.closing(0, 1)
    harness.SECONDS = LATE
    rows = [it for it in harness.read_rows() if it.stdout == it.stderr == "pipe" and it.is_again()]
    cases = [it for row in rows for it in cases_of(row) if is_long(row, it[2]) == (words == ("--long",))]
    cases.sort(key=lambda it: -len(it[0].out) // it[2])
    with tempfile.TemporaryDirectory() as folder:
        SHIM = f"{folder}/fail_write.so"
        harness.build_shim("fail_write.c", SHIM)
        passed, failed, count = harness.tally(harness.in_processes(judge, cases, start, 1 if words else 10))
    failed += harness.too_few("writes were refused, one in each run or it and all after it", count, LEAST)
    return harness.closing(passed, failed)


if __name__ == "__main__":
    sys.exit(main(*sys.argv[1:]))
