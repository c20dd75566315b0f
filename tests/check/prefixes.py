"""Reads every prefix of every template and data file of the rows and examples. Of files of up to 20,000 bytes these are all; of longer
ones, whose prefixes are too many bytes (those of 16 MiB are 1.4e14), it reads the first 2,000, and where they have up to 1,048,576 bytes 16
that lie evenly after these, and the last 4 before the whole file. `prefixes.py --long` reads all those of files of up to 262,144 bytes, and
these 20 of all longer ones, and `--some` those of each 16th file. They are read in memory, many in one process, by the probe. What a front
comes to is told by meaning.py and reading.py, which share no code with the program: a template is refused at a line for a reason, or runs
over the row's data to a text and an end; data is refused, or put out whole by `{{.}}`. That data of more than 1,000 bytes whose first
bracket or quote is not closed by its last byte is no JSON is told without reading it. Of the fronts of a file of more than 1,000 bytes that
are accepted, of which meaning.py is slow to tell, it tells each 64th and the last, and none of those after the first 2,000 of a file of
more than 20,000; the others must be accepted."""
import bisect
import itertools
import os
import re
import sys

from tests.fault import memory
from tests.lib import harness
from tests.oracle import meaning, reading

WHOLE, ALL = 20000, 1 << 18  # bytes of a file of which all fronts are read, and by --long
LONGER = 1 << 20  # bytes of a file of which some are read, without --long
FEW, SPREAD, LAST = 2000, 16, 4  # fronts of a longer one: the first, those after them, and the last before the whole
RUN, EACH = 1000, 64  # bytes up to which all accepted fronts are run by meaning.py, and how few of them else
ALONE = 100  # bytes of a file up to which each of its fronts is read alone too
SPARE = 1 << 24  # bytes that one process may read, which it keeps, and trees of them
LEAST = {"template": 380000, "data": 26400}  # fronts
RUNS = 25000  # fronts of templates that are accepted
SOME = 16  # by --some, each this many files are read
CLOSES = {b"[": b"]", b"{": b"}", b'"': b'"'}  # what ends a list, a map or a text of JSON
OPTIONS = meaning.Options(depth=20, steps=1000)  # what a run may take
WORDS = [b"tmpl", b"--steps", b"1000", b"--depth", b"20"]
# What the fronts of a template come to, worked out by hand: the last length, and why it is refused.
TABLE = b"a{{if .x}}{{/*c*/}}b{{end}}"
COMES_TO = [
    *[(2, None), (9, reading.UNREADABLE), (11, reading.OPEN), (18, reading.UNREADABLE), (21, reading.OPEN)],
    *[(26, reading.UNREADABLE), (27, None)],
]


def sources(rows):
    """The templates of the rows with their base names and the data over which they are run, a long one once, and the data files."""
    templates, data, long = set(), set(), set()
    for row in rows:
        held = {os.fsencode(name): what for name, what in row.files.items() if what is not None}
        _, files, file = harness.parted(row.words)
        given = held.get(file)
        data |= {given} if given is not None else set()
        given = given if given is not None and len(given) <= FEW else None
        for name in files:
            if name in held and os.path.basename(name) and not (len(held[name]) > RUN and held[name] in long):
                long.add(held[name])
                templates.add((os.path.basename(name), held[name], given))
    return templates, data


def always(told):
    return lambda number: told


class Fronts:
    """For the fronts of a file, stretch by stretch, what they come to."""

    def __init__(self):
        self.ends, self.told = [], []

    def up_to(self, last, tell):
        """Has all further fronts of up to this many bytes come to what this function tells of their number of bytes."""
        self.ends.append(last)
        self.told.append(tell)

    def __getitem__(self, number):
        if number > reading.LONGEST:
            return 1, reading.TOO_LONG
        return self.told[bisect.bisect_left(self.ends, number)](number)


def told_of_fronts(name, data):
    """For each front of a template file its line and why it is refused, as far as an action of it tells or what is open at its end; none
    where nothing is open. The actions are gone over once, since a front has those of the whole file but for the last, which is not
    closed where the front ends in it."""
    told, read, refused, at = Fronts(), reading.Reading(name), None, 0
    ends = [it.start() for it in re.finditer(b"\n", data)]

    def line(place):
        return 1 + bisect.bisect_left(ends, place)

    def left_open(number):
        return line(number), reading.OPEN

    while True:
        start = data.find(b"{{", at)
        # one brace is text
        last = len(data) if start < 0 else start + 1
        told.up_to(last, always(refused) if refused or not read.frames else left_open)
        if start < 0:
            return told
        unreadable = always(refused or (line(start), reading.UNREADABLE))
        try:
            tokens, _, at = reading.action_at(data, start)
        except reading.Refused:
            told.up_to(len(data), unreadable)
            return told
        told.up_to(at - 1, unreadable)
        try:
            if tokens is not None and not refused:
                read.action(line(start), tokens)
        except reading.Refused as why:
            refused = line(start), str(why)
        except RecursionError:
            # of a long file, which ends with this action
            return told


def wanted_of(name, front, given, refused):
    """The status, output and errors for a front of a template."""
    if refused:
        return 4, b"", b"tmpl: %s:%d: %s\n" % (name, refused[0], refused[1].encode())
    return meaning.outcome([(name, front)], None if given is None else (b"d", given), OPTIONS)


def is_told_otherwise(name, front, told):
    """Whether a front that is read alone is refused otherwise. Where nothing is open it may have a second definition."""
    refused = reading.refusal(name, front)
    return refused != told and not (told is None and refused[1] == reading.SECOND)


def is_cut_off(data):
    """Whether what the first byte of data opens is not closed by the last, so that it is no JSON."""
    inside = data.strip(b" \t\n\r")
    return inside[:1] in CLOSES and not inside.endswith(CLOSES[inside[:1]])


def wanted_of_data(front):
    if len(front) > RUN and is_cut_off(front):
        return 5, b"", b"tmpl: d: %s\n" % reading.NOT_JSON.encode()
    try:
        return 0, reading.data_text(front), b""
    except reading.Refused as why:
        return 5, b"", b"tmpl: d: %s\n" % str(why).encode()


def check(case):
    """Reads some fronts of a file: how many were accepted, and what is wrong with the first that is not as it should be."""
    kind, name, data, given, parts = case
    if kind == "template":
        words = [*WORDS, *([b"--data", b"d"] if given is not None else []), b"--", name]
        files = [(name, data), *([(b"d", given)] if given is not None else [])]
        told = told_of_fronts(name, data)
    else:
        words, files = [b"tmpl", b"--data", b"d", b"--", b"show"], [(b"d", data), (b"show", b"{{.}}")]
    sweeps = [memory.Sweep(words, files, b"front", *part) for part in parts]
    runs = [came for its in memory.run_sweeps(sweeps, max(1 << 20, 2 * len(data))) for came in its]
    accepted = 0
    for came in runs:
        front = data[: came.number]
        if kind == "data":
            wanted = wanted_of_data(front)
        else:
            is_sampled = len(data) <= WHOLE and (accepted % EACH == 0 or came.number == len(data))
            is_told = told[came.number] or len(data) <= RUN or is_sampled
            wanted = wanted_of(name, front, given, told[came.number]) if is_told else None
            if len(data) <= ALONE and is_told_otherwise(name, front, told[came.number]):
                return accepted, [f"FAILED it is told otherwise what is open in {front!r} of {name!r}"]
        accepted += wanted is None or wanted[0] < 2
        wrong = memory.wrongly(came, *(wanted or (min(came.status, 1), came.out, came.err)))
        if wrong:
            return accepted, [f"FAILED {kind} {name.decode()} of the {len(front)} bytes {harness.short(front)}", *wrong]
    count = fronts_of(case)
    return accepted, [] if len(runs) == count else [f"FAILED {len(runs)} fronts of {count} were read of {name.decode()}"]


def fronts_of(case):
    return sum(count for _, _, count in case[-1])


def cases(kind, name, data, given, is_long):
    """The fronts of a file, as many together as one process may read; of each part of them the first, the step, and how many there are."""
    last = len(data) if len(data) <= (ALL if is_long else WHOLE) else FEW
    first, size = 0, 0
    for n in range(last + 1):
        size += n + len(given or b"")
        if size > SPARE or n == last:
            yield kind, name, data[: last + 1], given, [(first, 1, n + 1 - first)]
            first, size = n + 1, 0
    if last < len(data) and (is_long or len(data) <= LONGER):
        step = (len(data) - LAST - FEW) // SPREAD
        yield kind, name, data, given, [(FEW + step, step, SPREAD), (len(data) - LAST, 1, LAST)]


def start():
    sys.setrecursionlimit(20000)


def check_table():
    """Whether the reading agrees with what was worked out by hand."""
    wanted = [next(why for last, why in COMES_TO if n <= last) for n in range(len(TABLE) + 1)]
    told = [(reading.refusal(b"m", TABLE[:n]) or (None, None))[1] for n in range(len(TABLE) + 1)]
    return [] if told == wanted else [f"FAILED the fronts of {TABLE!r} are read as {told}"]


def main(words):
    if not memory.is_built():
        return harness.closing(0, 1)
    templates, data = sources(harness.read_rows())
    templates.add((b"m", TABLE, None))
    is_long, part = "--long" in words, SOME if "--some" in words else 1
    its = [it for name, what, given in sorted(templates, key=repr) for it in cases("template", name, what, given, is_long)]
    its += itertools.chain.from_iterable(cases("data", b"d", what, None, is_long) for what in sorted(data))
    its = its[::part]
    failed = len(check_table())
    print(*check_table(), sep="\n", end="\n" * failed)
    runs = 0
    for accepted, wrong in harness.in_processes(check, its, start, 4):
        runs, failed = runs + accepted, failed + bool(wrong)
        print(*wrong, sep="\n", end="\n" * bool(wrong))
    passed = len(its) + 1 - failed
    for kind, least in LEAST.items():
        failed += harness.too_few(f"fronts of {kind} files were read", sum(fronts_of(it) for it in its if it[0] == kind), least if part == 1 else least // (2 * part))
    failed += harness.too_few("fronts were accepted", runs, RUNS if part == 1 else RUNS // (4 * part))
    return harness.closing(passed, failed)


if __name__ == "__main__":
    sys.exit(main(sys.argv[1:]))
