"""Runs tmpl_host, the example of docs/EMBEDDING.md for hosts in Rattle, and the probe, and compares their output with the cases beside
them."""
import subprocess
import sys

from tests.lib import harness, programs

CASES = {
    "tmpl_host": ([harness.HOST], f"{programs.TESTS}/tmpl_host/stdout"),
    "tmpl_probe": ([harness.PROBE, "cases", f"{programs.TESTS}/tmpl_probe/cases"], f"{programs.TESTS}/tmpl_probe/stdout"),
}


def check(words, wanted):
    """What is wrong with a run, a line each."""
    ran = subprocess.run(words, stdin=subprocess.DEVNULL, stdout=subprocess.PIPE, timeout=harness.SECONDS)
    with open(wanted, "rb") as it:
        wanted = it.read()
    return [] if (ran.returncode, ran.stdout) == (0, wanted) else [f"    got {ran.returncode} {harness.short(ran.stdout)}"]


def main():
    if not harness.is_built(harness.HOST, harness.PROBE):
        return harness.closing(0, 1)
    passed, failed, _ = harness.tally((name, 1, check(*its)) for name, its in CASES.items())
    return harness.closing(passed, failed)


if __name__ == "__main__":
    sys.exit(main())
