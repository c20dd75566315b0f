"""Prints each set of the rows and examples, and random ones, by `--print`, and reads them again. The bytes must be those of reading.py,
which shares no code with the program, and where a set is refused, so must be the file, the line and the reason. Then what was printed is
read: under the name of the first file it must be printed as the same bytes, and rendered with the same data to the same status and output,
with a line that differs in where it says that the run stopped alone. `printing.py COUNT SEED` draws others. TMPL=PATH names another build."""
import json
import os
import re
import sys

from tests.go import compare
from tests.lib import harness
from tests.oracle import reading

COUNT = 5000
LARGE = 1 << 17  # bytes up to which the files of a row are printed
LONGEST = 16777216  # bytes of a file
WORDS_REFUSED = (2, b"", b"tmpl: arguments refused; see tmpl --help\n")


class Case:
    """Words without `--print`, and the files for them."""

    def __init__(self, name, words, files):
        self.name, self.words, self.files = name, words, files
        self.options, self.paths, self.data = harness.parted(words)

    def wanted(self):
        """What `--print` comes to."""
        printed, refused = reading.printed([(os.path.basename(path), self.files[path]) for path in self.paths])
        if not refused:
            return 0, printed, b""
        place, line, reason = refused
        return 4, b"", b"tmpl: %s:%d: %s\n" % (self.paths[place], line, reason.encode())

    def again(self):
        """The words by which what was printed is read: as the first of the files."""
        return [*self.options, b"--", self.paths[0]]


def of_row(row):
    """A row, where it is about a set; a file and what is printed of it need the same place."""
    words = [word for word in row.words if word != b"--print"]
    files = {os.fsencode(name): what for name, what in row.files.items() if what is not None}
    case = Case(row.name, words, files)
    is_plain = row.is_plain() and row.is_again() and row.stdout == row.stderr == "pipe" and row.stdin is None
    has_files = case.paths and all(path in files for path in case.paths) and len(files) == len(row.files)
    asks = {b"-h", b"--help"} & {*words}
    return case if is_plain and has_files and not asks and case.data != case.paths[0] and row.size() <= LARGE else None


def of_seed(seed):
    it = compare.draw(seed)
    files = {b"%d/%s" % (number, file["Name"].encode()): file["Text"].encode() for number, file in enumerate(it["Files"])}
    data = json.dumps(it["Data"]).encode()
    return Case(f"seed {seed}", [b"--steps", b"10000", b"--data", b"d", *files], {**files, b"d": data})


def unplaced(got):
    """What came of a run, without the place at which it stopped."""
    status, out, err = got
    return status, out, re.sub(rb"^tmpl: .*?:[1-9][0-9]*: (?=in \")", b"", err, flags=re.DOTALL) if status == 1 else err


def check(case):
    """What is wrong, and whether the set was accepted."""
    RUNNER.empty()
    for name, what in case.files.items():
        RUNNER.lay(name, what)
    rendered = RUNNER.run(case.words)
    got = RUNNER.run([b"--print", *case.words])
    wanted = WORDS_REFUSED if rendered == WORDS_REFUSED else case.wanted()
    if got != wanted:
        return [f"    printed: {got}", f"    wanted: {wanted}"], False
    status, printed, _ = got
    if status:
        return [] if got == rendered else [f"    refused: {got}", f"    rendered: {rendered}"], False
    RUNNER.lay(case.paths[0], printed)
    again = RUNNER.run([b"--print", *case.again()])
    if again != (0, printed, b""):
        return [f"    printed: {harness.short(printed)}", f"    again: {again}"], True
    same = RUNNER.run(case.again())
    if unplaced(same) != unplaced(rendered):
        return [f"    printed: {harness.short(printed)}", f"    rendered: {rendered}", f"    then: {same}"], True
    return [], True


def check_longest():
    """A file that is as long as may be is printed, and what is printed of it is too long to be read."""
    RUNNER.empty()
    RUNNER.lay(b"m", b"a" * LONGEST)
    status, printed, err = RUNNER.run([b"--print", b"m"])
    RUNNER.lay(b"m", printed)
    again = RUNNER.run([b"m"])
    wanted = 4, b"", b"tmpl: m:1: file longer than %d bytes\n" % LONGEST
    fits = (status, printed, err) == (0, b'{{define "m"}}' + b"a" * LONGEST + b"{{end}}\n", b"") and again == wanted
    return [] if fits else [f"    it comes to {status}, {err}, and then to {again}"]


def start():
    global RUNNER
    RUNNER = harness.Runner()


def check_named(how):
    """One row, the random set of a seed, or the longest file."""
    if how == LONGEST:
        return "a file that is as long as may be", check_longest(), True
    case = of_seed(how) if isinstance(how, int) else how
    return case.name, *check(case)


def main(count=COUNT, first=0):
    if not harness.is_built():
        return harness.closing(0, 1)
    rows = [it for it in map(of_row, harness.read_rows()) if it]
    cases = [*rows, *range(int(first), int(first) + int(count))]
    accepted = failed = 0
    for name, wrong, is_set in harness.in_processes(check_named, [LONGEST, *cases], start, 50):
        if wrong:
            print(f"FAILED {name}", *wrong, sep="\n")
        accepted, failed = accepted + is_set, failed + bool(wrong)
    passed = len(cases) + 1 - failed
    print(f"{len(cases) + 1 - accepted} sets were refused")
    # of the random ones more than half are accepted
    failed += harness.too_few("sets were printed and read again", accepted, len(rows) // 2 + int(count) // 2)
    return harness.closing(passed, failed)


if __name__ == "__main__":
    sys.exit(main(*sys.argv[1:]))
