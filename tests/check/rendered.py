"""Runs the program over each row of tests/rows and each example, and compares its output, its errors and its exit status. TMPL=PATH runs
another build of the program."""
import sys

from tests.lib import harness

LEAST = 1490  # rows


def check(runner, row):
    runner.lay_row(row)
    try:
        return harness.differences(row, harness.run(row, runner.held.name))
    except harness.Late:
        return [f"    it had not ended after {harness.SECONDS} seconds"]


def main():
    if not harness.is_built():
        return harness.closing(0, 1)
    runner = harness.Runner()
    passed, failed, runs = harness.tally((row.name, 1, check(runner, row)) for row in harness.read_rows())
    failed += harness.too_few("rows were run", runs, LEAST)
    return harness.closing(passed, failed)


if __name__ == "__main__":
    sys.exit(main())
