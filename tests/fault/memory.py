"""Runs the command over sources and sinks that fail, and public calls with each allocation refused in turn. By the probe, first sinks and
sources that fail, by hand. Then each row over sinks that take 1, 3 and 4,096 bytes a put and fail at put N, N counting up until none fails,
and over a source that fails at read N. Last calls, each with every allocation refused in turn."""
import os
import subprocess
import sys
import tempfile

from tests.lib import harness

MOSTS = (1, 3, 4096)  # bytes that a put takes at most
WORK = 10**9  # puts of a row times its bytes, up to which each put fails in turn; beyond that only some do
SMALL = 1 << 14  # bytes in the files and the output of a row that is run often
SPARE = 1 << 23  # bytes of files that one process may read again and again, which it keeps, and trees of them
MANY = 1 << 30  # more runs than there are puts
ALL = 1 << 62  # more bytes than there are
ROWS = 1440  # rows
LEAST = {"output": 40000, "errors": 18000, "reads": 3000}  # runs
LINES = set()  # those of which each byte was put alone
WRITE_FAILED = b"tmpl: write failed\n"


class Limits:
    """What a sink takes in all and a put at most, at which put it fails, and whether that one alone fails."""

    def __init__(self, room=ALL, most=ALL, fails_at=0, once=True):
        self.numbers = room, most, fails_at, int(once)


class Sweep:
    """A command over files, and the numbers with which it is run: what each of them says, the first, the step and how many. It ends with
    a run in which nothing failed, or with another, or with any."""

    def __init__(self, words, files, told, first=1, step=1, count=MANY, out=Limits(), err=Limits(), wanted=b"", ends=True):
        self.words, self.files, self.told, self.wanted = words, files, told, wanted
        self.out, self.err, self.first, self.step, self.count, self.ends = out, err, first, step, count, ends

    def bytes(self):
        """As the program reads it."""
        words = numbers(len(self.words)) + b"".join(map(counted, self.words))
        limits = numbers(*self.out.numbers, *self.err.numbers)
        return words + listed(self.files) + counted(self.wanted) + limits + counted(self.told) + numbers(self.first, self.step, self.count)


class Came:
    """What came of a run: its number, the status, how many reads there were, of each sink how many puts, those after the first that
    failed and what was taken."""

    def __init__(self, number, status, reads, puts, after, out, err_after, err):
        self.number, self.status, self.reads, self.puts, self.after = number, status, reads, puts, after + err_after
        self.out, self.err = out, err


def numbers(*them):
    return b"".join(b"%d\n" % it for it in them)


def counted(what):
    return b"%d\n%b" % (len(what), what)


def listed(files):
    """Files as the program reads them."""
    return numbers(len(files)) + b"".join(counted(name) + counted(what) for name, what in files)


def is_built():
    """Whether the program is there; if it is not, says so."""
    return harness.is_built(harness.PROBE)


def started(words):
    """What a process of the program puts out, which has to end well."""
    ran = subprocess.run([harness.PROBE, *words], stdout=subprocess.PIPE, stderr=subprocess.PIPE, timeout=10 * harness.SECONDS)
    if ran.returncode or ran.stderr:
        raise RuntimeError(f"the probe ended with {ran.returncode}, and said {harness.short(ran.stderr)}")
    return ran.stdout


def run_sweeps(sweeps, room):
    """What came of each run of each sweep, in one process, over sinks with room for this many bytes."""
    with tempfile.NamedTemporaryFile(dir=harness.MEMORY) as file:
        file.write(numbers(room, len(sweeps)) + b"".join(it.bytes() for it in sweeps))
        file.flush()
        put = started(["cases", file.name])
    at = 0
    for sweep in sweeps:
        runs = []
        while put[at : at + 1] != b"\n":
            end = put.index(b"\n", at)
            status, reads, puts, after, taken, err_after, err_taken, told = map(int, put[at:end].split())
            at = end + 1 + told + err_taken
            out = put[end + 1 : end + 1 + told] if told else sweep.wanted[:taken]
            number = sweep.first + len(runs) * sweep.step
            runs.append(Came(number, status, reads, puts, after, out, err_after, put[at - err_taken : at]))
        at += 1
        yield runs


def wrongly(came, status, out, err):
    """What is not as it should be, a line each; no put may follow a failed one."""
    wrong = [f"    {name}: {is_!r}\n    wanted: {want!r}" for name, is_, want in zip(
        ("status", "output", "errors"), (came.status, came.out, came.err), (status, out, err)) if is_ != want]
    return wrong + [f"    {came.after} puts after the failed one"] * (came.after > 0)


# ---- sinks and sources by hand

DEEPER = [b"tmpl", b"--depth", b"3", b"--data", b"d", b"m"]
DEEPER_FILES = [(b"m", b'{{define "t"}}x{{template "t"}}{{end}}{{template "t"}}'), (b"d", b"null")]
TOO_DEEP = b'tmpl: m:1: in "t": calls deeper than 3\n'
THREE = [b"tmpl", b"--data", b"d", b"m", b"two"]
THREE_FILES = [(b"m", b"a"), (b"two", b"b"), (b"d", b"{}")]
REFUSED_FILES = [(b"m", b"{{if .}}"), (b"two", b"b"), (b"d", b"{}")]


def once(words, files, told, number, **limits):
    return Sweep(words, files, told, number, 1, 1, **limits)


# what is run, the status, the output that was taken, the errors, and how many reads and puts of output there were
HAND = [
    ("the second put of one byte fails", once(DEEPER, DEEPER_FILES, b"output", 2, out=Limits(most=1)), 6, b"x", WRITE_FAILED, 2, 2),
    ("the third put of one byte would fail and never comes", once(DEEPER, DEEPER_FILES, b"output", 3, out=Limits(most=1)), 1, b"xx", TOO_DEEP, 2, 2),
    ("the error sink takes five bytes and then fails", once(DEEPER, DEEPER_FILES, b"output", 0, err=Limits(room=5)), 1, b"xx", b"tmpl:", 2, 1),
    ("the first read of three fails", once(THREE, THREE_FILES, b"reads", 1), 3, b"", b"tmpl: m: read failed\n", 1, 0),
    ("the second read of three fails", once(THREE, THREE_FILES, b"reads", 2), 3, b"", b"tmpl: two: read failed\n", 2, 0),
    ("the third read of three fails", once(THREE, THREE_FILES, b"reads", 3), 3, b"", b"tmpl: d: read failed\n", 3, 0),
    ("the fourth read of three would fail and never comes", once(THREE, THREE_FILES, b"reads", 4), 0, b"a", b"", 3, 1),
    ("the read after a refused file would fail and never comes", once(THREE, REFUSED_FILES, b"reads", 2), 4, b"",
     b"tmpl: m:1: file ends inside a control\n", 1, 0),
    ("the first put alone fails", once(DEEPER, DEEPER_FILES, b"output", 1), 6, b"", WRITE_FAILED, 2, 1),
    ("both sinks fail", once(DEEPER, DEEPER_FILES, b"output", 2, out=Limits(most=1), err=Limits(room=5)), 6, b"x", b"tmpl:", 2, 2),
    ("an output that takes one byte and then is full", once(DEEPER, DEEPER_FILES, b"output", 0, out=Limits(room=1)), 6, b"x",
     WRITE_FAILED, 2, 2),
]


def judge_hand():
    for (name, _, status, out, err, reads, puts), (came,) in zip(HAND, run_sweeps([it[1] for it in HAND], 1000)):
        wrong = wrongly(came, status, out, err)
        if (came.reads, came.puts) != (reads, puts):
            wrong.append(f"    {came.reads} reads and {came.puts} puts, wanted {reads} and {puts}")
        yield name, 1, wrong


# ---- rows


def given(row):
    """The files of a row under the names by which its words have them, and these in the order in which they are read; none where
    the row needs more than files, pipes for what it puts out and words that are texts."""
    if not (row.stdout == row.stderr == "pipe" and row.is_again() and row.stdin is None and row.status < 6) or row.err.endswith(b": read failed\n"):
        return None
    try:
        [it.decode() for it in (row.program, *row.words)]
    except UnicodeDecodeError:
        return None
    options, paths, data = harness.parted(row.words)
    before = row.words[: row.words.index(b"--")] if b"--" in row.words else row.words
    asks = {*before} & {b"-h", b"--help"} or row.status == 2
    names = [] if asks else [*paths, *([data] if data is not None and b"--print" not in options else [])]
    held = {os.path.normpath(os.fsencode(name)): what for name, what in row.files.items()}
    files = {name: held.get(os.path.normpath(name)) if name else None for name in names}
    there = {name: what for name, what in files.items() if what is not None}
    # what is there and is no file fails in another way
    others = [name for name in names if name not in there and (not name or os.path.normpath(name) in held or name[:1] == b"/" or b"\0" in name)]
    return None if others else (list(there.items()), names)


def is_small(row):
    """Whether a row is run often."""
    return row.size() <= SMALL


def of_output(row, words, files):
    """The sweeps over the puts of output of a row."""
    for most in MOSTS if is_small(row) else MOSTS[-1:]:
        puts = -(-len(row.out) // most)
        its = [(1, 1, MANY, True)]
        whole = puts * row.size() <= WORK
        if not whole:
            few = 10 if is_small(row) else 1
            its = [(1, 1, few, None), (few + 1, max(1, (puts - few) // few), few, None), (max(1, puts), 1, MANY, True)]
        for first, step, count, ends in its:
            for alone in (True, False) if whole and most == 3 else (True,):
                yield Sweep(words, files, b"output", first, step, count, Limits(most=most, once=alone), wanted=row.out, ends=ends)


def of_errors(row, words, files):
    """The sweeps over the puts of errors of a row, a byte a put where no row before it has the line."""
    if not is_small(row) or len(row.err) * row.size() > WORK:
        yield Sweep(words, files, b"errors", 2, 2, 2, err=Limits(most=3), wanted=row.out, ends=None)
        return
    mosts = MOSTS[1:] if row.err in LINES else MOSTS
    LINES.add(row.err)
    for most in mosts:
        yield Sweep(words, files, b"errors", err=Limits(most=most), wanted=row.out)


def judge_output(row, _, sweep, came):
    """Whether a put failed in a run, and what is wrong with it. By puts of at most one byte it is known how many were taken."""
    most = sweep.out.numbers[1]
    if came.status != 6:
        wrong = wrongly(came, row.status, row.out, row.err)
        fits = -(-len(row.out) // most) <= came.puts < came.number
    else:
        wrong = wrongly(came, 6, row.out[: len(came.out)], WRITE_FAILED)
        puts, taken = came.number - 1, len(came.out)
        fits = came.puts == came.number and taken < len(row.out) and (taken == puts if most == 1 else taken <= most * puts)
    return came.status == 6, wrong + [f"    {len(came.out)} bytes were taken by {came.puts} puts"] * (not fits)


def judge_errors(row, _, sweep, came):
    """Whether a put of the errors failed in a run, and what is wrong with it: the status and the output are as ever."""
    wrong, taken = wrongly(came, row.status, row.out, row.err[: len(came.err)]), len(came.err)
    has_failed = taken < len(row.err)
    fits = sweep.err.numbers[1] > 1 or not has_failed or taken == came.number - 1
    return has_failed, wrong + [f"    {taken} bytes were taken by {came.number - 1} puts"] * (not fits)


def judge_reads(row, names, _, came):
    """Whether a read failed in a run, and what is wrong with it. One that fails is the last, and the line says of which file."""
    if came.status != 3 or came.err == row.err:
        fits = came.reads < came.number and (row.status not in (0, 1) or came.reads == len(names))
        return False, wrongly(came, row.status, row.out, row.err) + [f"    {came.reads} reads"] * (not fits)
    wrong = wrongly(came, 3, b"", b"tmpl: %b: read failed\n" % names[came.number - 1])
    return True, wrong + [f"    {came.reads} reads"] * (came.reads != came.number)


def judge_runs(row, names, sweep, runs):
    """What is wrong with the first run of a sweep in which something is, or with how the sweep ends."""
    failed = []
    for came in runs:
        has_failed, wrong = JUDGES[sweep.told](row, names, sweep, came)
        if wrong:
            limits = (sweep.out if sweep.told == b"output" else sweep.err).numbers
            return [f"    with number {came.number} of {sweep.told.decode()} failing, at most {limits[1]} bytes a put", *wrong]
        failed.append(has_failed)
    *before, last = failed
    fits = all(before) and (sweep.ends is None or last != sweep.ends) and (last or sweep.ends is not False) and len(runs) <= sweep.count
    return [] if fits else [f"    {len(runs)} runs, of which {sum(failed)} had something that failed"]


JUDGES = {b"output": judge_output, b"errors": judge_errors, b"reads": judge_reads}


def sweeps_of(row):
    """The sweeps of a row, each with what one run of it takes of memory, and about how many there are."""
    files, names = given(row)
    words = [row.program, *row.words]
    takes = 2000 + sum(len(what) for _, what in files)
    for it in of_output(row, words, files):
        yield names, it, takes, runs_of(it, len(row.out), it.out)
    for it in of_errors(row, words, files):
        yield names, it, takes, runs_of(it, len(row.err), it.err)
    yield names, Sweep(words, files, b"reads", wanted=row.out), takes, 1


def runs_of(sweep, length, limits):
    """About how many runs a sweep has over the puts of this many bytes."""
    return min(sweep.count, max(1, -(-length // limits.numbers[1]) - sweep.first + 2))


def parts(sweep, runs, most):
    """A sweep, as sweeps of at most this many runs, of which the last may have more."""
    its = []
    while runs > most:
        its.append(Sweep(sweep.words, sweep.files, sweep.told, sweep.first, sweep.step, most, sweep.out, sweep.err, sweep.wanted, False))
        runs -= most
        sweep = Sweep(sweep.words, sweep.files, sweep.told, sweep.first + most * sweep.step, sweep.step, sweep.count, sweep.out, sweep.err,
                      sweep.wanted, sweep.ends)
    return [*its, sweep]


def batches(rows):
    """The sweeps of all rows, with their rows and the names that are read, as many together as one process may run: it keeps what each
    run has read."""
    batch, size = [], 0
    for row in rows:
        for names, sweep, takes, runs in sweeps_of(row):
            for part in parts(sweep, runs, max(1, SPARE // takes)) if sweep.count == MANY else [sweep]:
                batch.append((row, names, part))
                size += takes * min(runs, part.count)
                if size >= SPARE:
                    yield batch
                    batch, size = [], 0
    yield batch


def judge_batch(batch):
    """How many runs there were of each kind, and what was wrong, by the names of rows."""
    room = max((len(row.out) for row, _, _ in batch), default=0) + 1
    told, wrong = dict.fromkeys(JUDGES, 0), {}
    for (row, names, sweep), runs in zip(batch, run_sweeps([it for *_, it in batch], room)):
        told[sweep.told] += len(runs)
        said = judge_runs(row, names, sweep, runs)
        if said:
            wrong.setdefault(row.name, said)
    return told, wrong


# ---- calls

REFUSED = b"memory was refused\n"
OUT_OF_MEMORY = 7  # the status of the probe where memory is refused outside the call
BEFORE = b'{{define "a"}}one{{end}}{{define "b"}}two{{end}}own'
AFTER = b'{{define "c"}}new{{end}}{{define "b"}}changed{{end}}last'
WITH_IN_RANGE = b"{{range .}}{{with .k}}{{if eq . 2}}{{break}}{{end}}{{.}}{{end}};{{end}}{{len .}}"

# the call, the files over which it is made, what is put out where memory is ample, what is put out after a refusal that the call
# answers, and whether there is such a refusal
CALLS = [
    ("parse", [BEFORE, AFTER], b"accepted\na: one\nb: changed\nm: own\nc: new\nafter: last\n", b"a: one\nb: two\nm: own\n", True),
    ("parse", [BEFORE, b"{{/* nothing */}}"], b"accepted\na: one\nb: two\nm: own\nafter: \n", b"a: one\nb: two\nm: own\n", True),
    ("data", [b'{"b":[1,null,"x"],"a":{"k":true}}'], b"map[a:map[k:true] b:[1 <nil> x]]\n", b"", True),
    ("text", [b'{"b":[1,null,"x"],"a":{"k":true}}'], b"map[a:map[k:true] b:[1 <nil> x]]\n", b"", True),
    ("cut", [b'a{{.x}}b{{/* c */}}{{if .y}}{{end}}{{"'], b"2 3 1\n", b"", True),
    ("actions", [b'{{.x}}{{if and .a (not .b)}}{{else}}{{end}}{{printf "%d" 1 | print}}{{$x := 1}}{{nope}}'], b"6\n", b"", True),
    ("share", [b"text"], b"text\ntext\n", b"", True),
    ("copy", [b"text"], b"text\n", b"", True),
    ("quote", [bytes.fromhex("000a227fff")], b'"\\x00\\n\\"\\x7f\\xff"\n', b"", True),
    ("render", [b"a{{.x}}b", b'{"x":[1]}'], b"a[1]b", b"", True),
    ("renderer", [b"a{{.x}}b", b'{"x":[1]}'], b"a[1]b", b"", True),
    ("print", [b'a{{define "t"}}{{end}}b'], b'{{define "t"}}{{end}}\n{{define "m"}}a{{/**/}}b{{end}}\n\n', b"", True),
    ("tree", [b"{ {{- .x}}"], b"{ {{- .x}}\n", b"", True),
    ("compile", [b"x"], b"3 3 false 0 -\n", b"", True),
    ("compile", [b"{{and 0 (index .a 9)}}"], b"6 6 false 0 -\n", b"", True),
    ("compile", [b'{{"put" | printf "%s%s" "out" | printf "%q"}}'], b"6 6 true 0 -\n", b"", True),
    ("compile", [WITH_IN_RANGE], b"8 8 false 0 -\n", b"", True),
    ("compile", [b'{{define "t"}}{{and 0 (index .a 9)}}{{template "m"}}{{end}}'], b"6 9 false 1 -\n", b"", True),
    ("compile", [b'{{define "t"}}{{template "t"}}{{end}}{{and 0 (index .a 9)}}{{template "t"}}'], b"6 30 false 1 -\n", b"", True),
    *[("call", [name, arguments], told + b"\n", b"", True) for name, arguments, told in [
        (b"print", b'["a",1]', b"a1"),
        (b"println", b'["a",1]', b"a 1\n"),
        (b"printf", b'["%d-%s|%5d",1,"b",42]', b"1-b|   42"),
        (b"html", b'["<a>"]', b"&lt;a&gt;"),
        (b"urlquery", b'["a b"]', b"a+b"),
    ]],
    *[("call", [name, arguments], told + b"\n", b"", False) for name, arguments, told in [
        (b"not", b"[false]", b"true"),
        (b"len", b'["abc"]', b"3"),
        (b"index", b'[{"k":[7,8]},"k",1]', b"8"),
        (b"slice", b'["abc",1]', b"bc"),
        (b"slice", b"[[1,2,3],1,2]", b"[2]"),
        (b"eq", b"[1,2,1]", b"true"),
        (b"ne", b'["a","a"]', b"false"),
        (b"lt", b"[1,2]", b"true"),
        (b"le", b"[2,1]", b"false"),
        (b"gt", b'["b","a"]', b"true"),
        (b"ge", b"[1,2]", b"false"),
    ]],
]


def is_spared(ample, status, out, err):
    """Whether a run came to what it does with ample memory, or to a beginning of that at want of memory outside the call."""
    return (status, out, err) == (0, ample, b"") or (status == OUT_OF_MEMORY and ample.startswith(out) and not err)


def judge_call(shim, runner, name, files, ample, after, is_refused):
    """Makes a call with ample memory, and with each allocation refused in turn: then the probe ends for want of memory, where that is
    before the call or after it, and has put out a beginning of what it does with ample memory; or the call answers so and leaves all as
    it was; or all is as with ample memory. Nothing else is right. Where a function is called all allocations after the refused one are
    refused too, since a text for which there was no room may still grow as it needs."""
    runner.lay(b"files", listed([(b"", it) for it in files]))
    more = {**harness.ENVIRONMENT, "LD_PRELOAD": shim, "FAIL_EACH": str(runner.told), **({"FAIL_REST": "1"} if name == "call" else {})}
    got = runner.run_by(b"tmpl_probe", [b"make", name.encode(), b"files"], runner.actions, more)
    wrong = [] if got == (0, ample, b"") else [f"    it came to {got}", f"    wanted: {ample!r}"]
    answers = runs = 0
    for number, (status, out, err), _ in runner.turns():
        runs += 1
        if (status, out, err) == (0, REFUSED + after, b""):
            answers += 1
        elif not is_spared(ample, status, out, err):
            wrong.append(f"    with allocation {number} refused it came to {status}, {out!r}, {err!r}")
    if (answers > 0) != is_refused:
        wrong.append(f"    it answered {answers} times that memory was refused")
    return f"{name} of {files}", runs, wrong[:3]


def judge_calls():
    runner = harness.Runner()
    with tempfile.TemporaryDirectory() as folder:
        shim = f"{folder}/shim.so"
        harness.build_shim("fail_alloc.c", shim)
        yield from (judge_call(shim, runner, *it) for it in CALLS)


def main():
    if not is_built():
        return harness.closing(0, 1)
    harness.PROGRAM = harness.PROBE
    passed, failed, refused = harness.tally([*judge_hand(), *judge_calls()])
    print(f"{len(HAND)} cases by hand, and {len(CALLS)} calls with {refused} allocations refused, one in each run")
    rows = [row for row in harness.read_rows() if given(row)]
    came, wrong = dict.fromkeys(JUDGES, 0), {}
    for told, said in harness.in_processes(judge_batch, batches(rows), int, 1):
        wrong.update(said)
        for name, count in told.items():
            came[name] += count
    for name, said in wrong.items():
        print(f"FAILED {name}", *said, sep="\n")
    passed, failed = passed + len(rows) - len(wrong), failed + len(wrong)
    failed += harness.too_few("rows were run", len(rows), ROWS)
    for name, least in LEAST.items():
        failed += harness.too_few(f"runs of rows with {name} that fail", came[name.encode()], least)
    return harness.closing(passed, failed)


if __name__ == "__main__":
    sys.exit(main())
