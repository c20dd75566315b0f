"""Tests the tests: each must fail over programs that answer wrongly.

One that only fails, one that does nothing and ends well, one that loses the last byte of its output, and one that adds a line to it. The
last two are given to some tests alone, since they make two processes of each run. Tests that refuse memory or writes are run where
nothing is refused."""
import os
import re
import subprocess
import sys
import tempfile
from concurrent.futures import ThreadPoolExecutor

from tests.lib import harness, programs

# the tests, each with the program that is put in place
JUDGED = {
    **dict.fromkeys(("check.rendered", "check.places", "check.tables", "check.printing", "check.quotes", "check.hostile", "gate.generated"), "tmpl"),
    **dict.fromkeys(("check.problems", "check.migration", "check.verdicts", "check.outputs", "gate.documents"), "tmpl-check"),
    **dict.fromkeys(("check.prefixes", "check.instructions", "check.formats"), "tmpl_probe"),
    "check.host": "tmpl_host",
}
ONLY_FAILS = ("check.printing", "check.quotes", "check.hostile", "check.places", "check.tables")  # that are long over any other
FINELY = ("check.rendered", "check.problems", "check.migration", "gate.documents", "check.host")  # with the last two programs too
REFUSING = ("fault.calls", "fault.kept", "fault.lent_memory", "fault.sweep", "fault.writes", "check.problems")  # by a shim
SECONDS = 600


def complaint(test, name, program, more):
    """What is wrong with a test over a program that answers wrongly: it passes, or does not end."""
    environment = {**os.environ, programs.VARIABLES[name]: program, "STOPS": "1", **more}
    how = {"cwd": harness.TOP, "env": environment, "stdin": subprocess.DEVNULL, "stdout": subprocess.PIPE, "stderr": subprocess.STDOUT, "text": True}
    try:
        ran = subprocess.run([sys.executable, "-m", f"tests.{test}"], timeout=SECONDS, **how)
    except subprocess.TimeoutExpired:
        return [f"    it has not ended after {SECONDS} seconds"]
    is_passed = ran.returncode == 0 and re.search(r"^[1-9]\d* passed, 0 failed$", ran.stdout, re.MULTILINE)
    return ["    it passes"] if is_passed else []


def wrongs(test, name, folder):
    """What answers wrongly: of each what it does, its path, and what it is told."""
    yield "fails", "/bin/false", {}
    if test in ONLY_FAILS:
        return
    yield "does nothing", "/bin/true", {}
    if test in FINELY:
        # a copy of its own name, since some tests look at that
        real = {"REAL": programs.path(name)}
        if test != "gate.documents":  # a block does not show whether an output ends with a newline
            yield "loses a byte", f"{folder}/{name}", real
        yield "adds a line", f"{folder}/{name}", {**real, "ADDS": "1"}


def main():
    with tempfile.TemporaryDirectory() as folder:
        for name in programs.ALL:
            subprocess.run(["cc", "-O1", f"{harness.TESTS}/shim/wrong.c", "-o", f"{folder}/{name}"], check=True)
        cases = [(test, name, *it) for test, name in JUDGED.items() for it in wrongs(test, name, folder)]
        cases += [(test, "tmpl", "is refused nothing", programs.path("tmpl"), {"REFUSER": "idle.c"}) for test in REFUSING]
        with ThreadPoolExecutor(harness.processes()) as pool:
            came = list(pool.map(lambda it: complaint(it[0], it[1], *it[3:]), cases))
    told = [(f"{test} with a {name} that {what}", 1, wrong) for (test, name, what, *_), wrong in zip(cases, came)]
    passed, failed, _ = harness.tally(told)
    return harness.closing(passed, failed)


if __name__ == "__main__":
    sys.exit(main())
