"""Runs compiled templates over exactly as many cells as are enough, and compares the text and how each run ended. By the probe, first every
row that comes to a run, over exactly as many cells as are enough, with pieces of some sizes, and over exactly the room of its set; and
whether it takes memory where no function makes a text. Then templates by hand: rooms; sinks that take little a put, and that fail, where no
put may follow the failed one; how many allocations a run makes, and each of them refused, over arrays."""
import os
import sys
import tempfile
from concurrent.futures import ThreadPoolExecutor
from itertools import product
from subprocess import DEVNULL, PIPE, run

from tests.fault import sweep
from tests.lib import harness

PIECES = (1, 2, 4, 4096)
LEAST = 8470  # runs
ALL = 2**64 - 1  # as many bytes as there are
DONE = b"status 0\n"
OUT_OF_MEMORY = b"tmpl: out of memory\nstatus 7\n"
NOT_RUN = (7, b"", b"")  # what the probe comes to where memory is refused before a run

WITH_IN_RANGE = "{{range .}}{{with .k}}{{if eq . 2}}{{break}}{{end}}{{.}}{{end}};{{end}}{{len .}}"

# the depth, the template files, the cells that runs of their set need, and whether a function makes a text. A template needs
# three cells of its own and those that it has at most at once: one for each value of a pipeline, each variable and each dot
# that is kept, and two for each range
ROOMS = [
    (1, [], 0, False),
    (1000, [], 0, False),
    (100000, [], 0, False),
    (1, ["x"], 3, False),
    (7, ["x"], 21, False),
    (1, [""], 3, False),
    (1, ["{{.}}"], 4, False),
    (1, ["{{and 0 (index .a 9)}}"], 6, False),
    (1000, ["{{range $i, $e := .}}{{if eq $e 3}}{{break}}{{end}}{{$i}}={{$e}};{{else}}none{{end}}"], 9000, False),
    (1, ["{{with .a}}A{{.}}{{else with .b}}B{{.}}{{else}}C{{.c}}{{end}}"], 5, False),
    (1, [WITH_IN_RANGE], 8, False),
    (1, ['{{"put" | printf "%s%s" "out" | printf "%q"}}'], 6, True),
    (2, ["x", "{{.}}"], 8, False),
    (1, ['{{define "n"}}{{print 1 2 3}}{{end}}x'], 6, True),
    (1, ["{{println}}"], 4, True),
    (1, ['{{and 0 (printf "%d" 1)}}'], 6, True),
    (1, ["{{html 1}}"], 4, True),
    (1, ["{{urlquery 1}}"], 4, True),
    (1, ["{{len 1}}{{not 1}}{{slice 1}}{{index 1}}{{eq 1 1}}{{or 1 1}}"], 5, False),
    (1000, ["x", '{{"put" | printf "%s%s" "out" | printf "%q"}}', ""], 6000, True),
]

THREE = "{{print 1 1 1}}"  # needs three cells for its arguments

# a template alone, and the cells that a run of it needs, its own three among them
ROOMS_OF_ONE = [
    # ---- pipelines
    ("{{.a.b}}", 4),
    # a call of no argument has what it gives, and one of three holds all three
    ("{{print}}", 4),
    ("{{len .}}", 4),
    (THREE, 6),
    # what is piped is held below the arguments, one value from each command to the next
    ("{{. | len}}", 4),
    ("{{1 | print 1 1}}", 6),
    ("{{1 | print 1 | print 1}}", 5),
    # parentheses add none, and what is held already is below them
    ("{{((.))}}", 4),
    ("{{(print 1 1)}}", 5),
    ("{{and 1 (index . 1)}}", 6),
    ("{{and (index . 1) 1}}", 5),
    ("{{1 | print 1 (print 1 (print 1 1))}}", 8),
    # what is no function takes no argument, so none is computed
    ("{{. 1 1}}", 4),
    ("{{1 | .a}}", 4),
    ("{{(print 1 1) 1 1 1}}", 5),
    # a function as an argument is a call without arguments
    ("{{print print print}}", 5),
    # ---- lists: nothing is left of one action for the next but a variable, one of the same name too
    ("word", 3),
    ("word{{.}}", 4),
    (THREE + "{{.}}", 6),
    ("{{$x := .}}", 4),
    ("{{$x := .}}{{$x}}", 5),
    ("{{$x := .}}word{{$x := .}}{{$x := .}}" + THREE, 9),
    ("{{$x := .}}{{$x = .}}{{$x = .}}{{$x}}", 5),
    (THREE + "{{$x := .}}{{.}}", 6),
    ("{{$x := .}}{{.}}" + THREE, 7),
    # ---- controls
    ("{{if .}}{{end}}", 4),
    ("{{if print 1 1 1}}{{.}}{{end}}", 6),
    ("{{if $x := print 1 1 1}}{{end}}", 6),
    ("{{if .}}" + THREE + "{{end}}", 6),
    ("{{if $x := .}}" + THREE + "{{end}}", 7),
    ("{{if $x := .}}{{else}}" + THREE + "{{end}}", 7),
    ("{{if $x := .}}" + THREE + "{{else}}" + THREE + "{{end}}", 7),
    # the body of a with has one more
    ("{{with .}}" + THREE + "{{end}}", 7),
    ("{{with $x := .}}" + THREE + "{{end}}", 8),
    ("{{with $x := .}}{{else}}" + THREE + "{{end}}", 7),
    # that of a range has two more, and its else part no variable
    ("{{range .}}" + THREE + "{{end}}", 8),
    ("{{range $x := .}}" + THREE + "{{end}}", 9),
    ("{{range $k, $x := .}}" + THREE + "{{end}}", 10),
    ("{{range $k, $x := .}}{{else}}{{print 1 1 1 1 1}}{{end}}", 8),
    ("{{range $k, $x := .}}{{end}}", 7),
    # no variable is left of a control
    ("{{if $x := .}}{{$x := .}}{{end}}" + THREE, 6),
    ("{{$x := .}}{{with $x := .}}{{$x := .}}{{range .}}" + THREE + "{{end}}{{end}}", 12),
]
ROOMS += [(1, [it], room, "print" in it) for it, room in ROOMS_OF_ONE]

# a template, its data, its text, and how it ends where no put fails
SINKS = [
    ("abcdefgh", None, "abcdefgh", "status 0\n"),
    ("{{range 4}}{{.}},{{end}}", None, "0,1,2,3,", "status 0\n"),
    ("{{.}}", '{"a": "x", "b": [1, null]}', "map[a:x b:[1 <nil>]]", "status 0\n"),
    ('{{print "ab" 1 "cd"}}{{len .}}', "[1, 2]", "ab1cd2", "status 0\n"),
    ("abc{{.a}}\n{{.a.b}}d", '{"a": "x"}', "abcx\n", 'tmpl: m:2: in "m": no field "b" here\nstatus 1\n'),
    ("", None, "", "status 0\n"),
]

# a template, its text, how many allocations a run makes, and how many of them count owners: there is one for each text that
# is made and is not empty, and one that counts owners for each of these that is kept in a variable or as dot
ALLOCATIONS = [
    ("x", "x", 0, 0),
    ("{{.}}{{$x := 1}}{{$x = 2}}{{$x}}", "<no value>2", 0, 0),
    ("{{range $i, $e := .}}{{$e}}{{else}}none{{end}}", "none", 0, 0),
    ("{{range 3}}{{range .}}{{.}}{{end}}{{else}}n{{end}}", "001", 0, 0),
    ('{{with "a"}}{{.}}{{slice . 0 1}}{{end}}{{eq 1 2}}{{index "abc" 1}}{{len "abc"}}', "aafalse983", 0, 0),
    ('{{define "t"}}{{if .}}{{.}}{{template "u" 0}}{{end}}{{end}}{{define "u"}}u{{end}}{{template "t" 1}}', "1u", 0, 0),
    ('{{or 1 (print "a")}}{{and 0 (html "<")}}', "10", 0, 0),
    ("{{print}}", "", 0, 0),
    ('{{print "a" 1}}', "a1", 1, 0),
    ("{{println}}", "\n", 1, 0),
    ('{{printf "%d%%" 7}}', "7%", 1, 0),
    ('{{html "<"}}', "&lt;", 1, 0),
    ('{{urlquery "a b"}}', "a+b", 1, 0),
    ('{{len (print "abc")}}{{slice (print "abc") 1 2}}', "3b", 2, 0),
    ('{{print (print "a") (printf "%d" 1)}}', "a1", 3, 0),
    ("{{range 5}}{{print .}}{{end}}", "01234", 5, 0),
    ('{{define "t"}}{{println .}}{{end}}{{template "t" 1}}{{template "t" 2}}', "1\n2\n", 2, 0),
    ('{{if print "a"}}x{{end}}{{print "b" | len}}', "x1", 2, 0),
    ('{{$x := print "a"}}{{$x}}{{$x}}{{$y := $x}}{{$y}}', "aaa", 2, 1),
    ('{{$x := 1}}{{$x = print "b"}}{{$x = html "c"}}{{$x}}', "c", 4, 2),
    ('{{with print "a"}}{{.}}{{.}}{{end}}', "aa", 2, 1),
    ('{{define "t"}}{{.}}{{end}}{{template "t" (print "a")}}', "a", 2, 1),
]

# a template, its data and its text, where a run makes no text, though a function of the template might: no refused allocation ends it
SPARED = [
    (WITH_IN_RANGE, '[{"k":1},{"k":2},{"k":3}]', "1;3"),
    ("{{if .}}{{print 1}}{{end}}", "null", ""),
]


def words(asked, piece=4096, most=ALL, left=ALL, fails="always", cells="enough", times=1):
    """What the probe reads after `run` and `fixed`: what is lent, and the words of a command."""
    return [*map(str, (piece, most, left)), fails, cells, str(times), "tmpl", *asked]


def probe(folder, it, stdin=None, more=None, keep=()):
    """The status, output and errors of a run of the probe."""
    taken = {"stdin": DEVNULL} if stdin is None else {"input": stdin}
    environment = {**os.environ, **(more or {})}
    ran = run([harness.PROBE, *it], cwd=folder, env=environment, pass_fds=keep, stdout=PIPE, stderr=PIPE, timeout=harness.SECONDS, **taken)
    return ran.returncode, ran.stdout, ran.stderr


def differences(got, wanted):
    """What is not as wanted, under what was looked at."""
    names = ("status", "output", "ending")
    pairs = [it for it in zip(names, got, wanted) if it[1] != it[2]]
    return [f"    {name}: {harness.short(str(is_))}\n    wanted: {harness.short(str(want))}" for name, is_, want in pairs]


def lay(folder, template, data=None):
    """Writes a template file of the name m, and data of the name d."""
    for name, what in (("m", template), ("d", data or "")):
        with open(f"{folder}/{name}", "w", newline="", encoding="utf-8") as file:
            file.write(what)


def allocations(shim, folder, it):
    """How many allocations a process makes: the greatest number whose allocation can be refused."""

    def is_made(number):
        return sweep.refusing(number, shim, lambda more, keep: probe(folder, it, None, more, keep))[1]

    high = 64
    while is_made(high):
        high *= 2
    low = high // 2 if high > 64 else 0
    while high - low > 1:
        middle = (low + high) // 2
        low, high = (middle, high) if is_made(middle) else (low, middle)
    if not low:
        raise RuntimeError("no allocation was refused, which would show nothing")
    return low


# rows


def is_run(row):
    """Whether the row comes to a run of a template."""
    options = row.words[: row.words.index(b"--")] if b"--" in row.words else row.words
    return row.status in (0, 1) and not {b"--print", b"-h", b"--help"} & set(options)


def ending(row, got):
    """How the run of a row must end. Where the row does not see the errors, any line will do."""
    status = b"status %d\n" % row.status
    if row.stderr != "pipe" and got.endswith(status):
        return got
    return row.err + status


def judge_row(row):
    """Runs a row with each size of a piece, over exactly as many cells as are enough, and over exactly those of the room."""
    ways = [(piece, "enough") for piece in PIECES] + [(PIECES[-1], "room")]
    with tempfile.TemporaryDirectory() as folder:
        row.lay(folder)
        for piece, cells in ways:
            row.lay_pipes(folder)
            got = probe(folder, ["run", *words(row.words, piece=piece, cells=cells)], row.stdin)
            wrong = differences(got, (0, row.out, ending(row, got[2])))
            if wrong:
                return row.name, 1, [f"    with a piece of {piece}, and as many cells as are {cells}", *wrong]
    return row.name, len(ways), []


def makes_text(row):
    """Whether a function of the row's set makes a text, as the probe says."""
    with tempfile.TemporaryDirectory() as folder:
        row.lay(folder)
        status, out, _ = probe(folder, ["room", "1", "tmpl", *row.words])
    if status or out.split()[1:] not in ([b"true"], [b"false"]):
        raise ValueError(f"{row.name}: no room is told: {out!r}")
    return out.split()[1] == b"true"


def judge_memory(shim, row):
    """Whether a run of a row takes memory though no function of its set makes a text."""
    with tempfile.TemporaryDirectory() as folder:
        row.lay(folder)
        none, one = (["run", *words(row.words, times=times)] for times in (0, 1))
        count = allocations(shim, folder, none)
        _, is_taken = sweep.refusing(count + 1, shim, lambda *how: probe(folder, one, None, *how))
    return f"{row.name}, memory", 1, ["    takes memory, and makes no text"] * is_taken


# by hand


def judge_room(depth, templates, room, makes_text):
    """Compares the room of a set, and whether it makes text."""
    with tempfile.TemporaryDirectory() as folder:
        files = [f"{folder}/{number}" for number in range(len(templates))]
        for file, template in zip(files, templates):
            with open(file, "w", newline="", encoding="utf-8") as it:
                it.write(template)
        got = probe(folder, ["room", str(depth), *(["tmpl", *files] if files else [])])
    wanted = (0, f"{room} {str(makes_text).lower()}\n".encode(), b"")
    return f"the room of {templates} at depth {depth}", 1, differences(got, wanted)


def judge_sink(template, data, text, end):
    """Runs a template with pieces of each small size, to sinks that take this many bytes a put and this many in all, and fail
    for good or once. They take a beginning, and no put follows a failed one, which would be told after the ending."""
    cases = list(product((0, 1, 2, 3, 4, 5, 4096), (1, 3, ALL), range(len(text) + 2), ("always", "once")))
    with tempfile.TemporaryDirectory() as folder:
        lay(folder, template, data)
        asked = ["--depth", "1", *(["--data", "d"] if data else []), "m"]
        for piece, most, left, fails in cases:
            it = words(asked, piece=piece, most=most, left=left, fails=fails)
            wanted = (0, text[:left].encode(), (end if left >= len(text) else "tmpl: write failed\nstatus 6\n").encode())
            wrong = differences(probe(folder, ["run", *it]), wanted)
            if wrong:
                how = f"    with a piece of {piece}, {most} bytes a put at most, and {left} until it fails {fails}"
                return f"sinks of {template!r}", 1, [how, *wrong]
    return f"sinks of {template!r}", len(cases), []


def judge_count(shim, template, text, count, _):
    """Counts the allocations of a run: the difference between two runs of one process and none."""
    with tempfile.TemporaryDirectory() as folder:
        lay(folder, template)
        none, two = (["run", *words(["--depth", "3", "m"], times=times)] for times in (0, 2))
        wrong = differences(probe(folder, two), (0, 2 * text.encode(), 2 * DONE))
        taken = (allocations(shim, folder, two) - allocations(shim, folder, none)) / 2
    if taken != count:
        wrong.append(f"    takes {taken:g} allocations, {count} wanted")
    return f"the memory of {template!r}", 1, wrong


def judge_refused(shim, template, text, count, kept, data=None):
    """Refuses each allocation of a process that runs a template over arrays. Nothing is run, where it comes before; or
    the run is as ever, or memory is told to be out and a beginning of the text was taken. The last comes of the owners at least,
    and at most of all allocations of the run: a text whose room is refused may still grow as it needs."""
    told = []

    def wrong(got, refused):
        status, out, errors = got
        if refused and got == NOT_RUN:
            return []
        if refused and (status, errors) == (0, OUT_OF_MEMORY) and text.encode().startswith(out):
            told.append(out)
            return []
        return differences(got, (0, text.encode(), DONE))

    with tempfile.TemporaryDirectory() as folder:
        lay(folder, template, data)
        it = ["fixed", *words(["--depth", "3", *(["--data", "d"] if data else []), "m"], piece=2)]
        runs, said = sweep.sweep(shim, lambda *how: probe(folder, it, None, *how), wrong)
    if not said and not kept <= len(told) <= count:
        said = [f"    memory was told to be out {len(told)} times, {kept} to {count} wanted"]
    return f"refused memory of {template!r}", runs, said


def main():
    if not harness.is_built(harness.PROBE):
        return harness.closing(0, 1)
    rows = [row for row in harness.read_rows() if is_run(row)]
    plain = [row for row in rows if row.is_again() and row.stdin is None and row.size() <= sweep.SMALL]
    with tempfile.TemporaryDirectory() as folder, ThreadPoolExecutor(harness.processes()) as pool:
        shim = f"{folder}/shim.so"
        sweep.build_shim("fail_alloc.c", shim)
        textless = [row for row, makes in zip(plain, pool.map(makes_text, plain)) if not makes]
        done = [pool.submit(judge_row, row) for row in rows]
        done += [pool.submit(judge_memory, shim, row) for row in textless]
        done += [pool.submit(judge_room, *row) for row in ROOMS]
        done += [pool.submit(judge_sink, *row) for row in SINKS]
        done += [pool.submit(judge, shim, *row) for judge in (judge_count, judge_refused) for row in ALLOCATIONS]
        done += [pool.submit(judge_refused, shim, template, text, 0, 0, data) for template, data, text in SPARED]
        passed, failed, runs = harness.tally(it.result() for it in done)
    print(f"{len(rows)} rows come to a run, and {len(textless)} of the small ones make no text")
    failed += harness.too_few("runs were judged", runs, LEAST)
    return harness.closing(passed, failed)


if __name__ == "__main__":
    sys.exit(main())
