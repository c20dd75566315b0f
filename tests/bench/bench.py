"""Times the built program and the C library beside other programs, and writes the table of docs/SPEED.md. TMPL=PATH names another build.

    bench.py [--dry]

Each pair runs turn by turn, and of each the median is told. A factor is ours over theirs. Go, the newest that is there, Jinja2, Tera and
ctemplate are left out where they are not there; `--dry` only puts the table out."""
import datetime
import glob
import importlib.util
import json
import os
import platform
import re
import shutil
import statistics
import subprocess
import sys
import tempfile
import time

from tests.fault import calls, sweep
from tests.go import compare
from tests.lib import harness

MIB = 1 << 20
LINE = b"All the world's a stage, and all the men and women merely players.\n"
PROBE = harness.PROBE
SMALL_ACTIONS = b"{{if .a}}{{$x := .b}}{{$x}}{{else}}{{range .c}}{{.}}{{end}}{{end}}\n"
PAGE = f"{harness.TOP}/docs/SPEED.md"
BEGIN, END = "<!-- made by `make bench`: begin -->\n", "<!-- made by `make bench`: end -->\n"
HEADINGS = ["| What | `tmpl` | Beside | Time | Memory | Wanted, at most |", "|---|---|---|---|---|---|"]


# ---- what was measured


def shown(seconds):
    for unit, scale in (("s", 1), ("ms", 1e3), ("µs", 1e6)):
        if seconds * scale >= 1:
            break
    else:
        unit, scale = "ns", 1e9
    return f"{seconds * scale:.{0 if seconds * scale >= 100 else 1 if seconds * scale >= 10 else 2}f} {unit}"


def with_memory(told, floor=0):
    """Seconds and KiB, as a cell of the table. What a process held is not known up to the floor."""
    return f"{shown(told[0])}, {'up to ' if told[1] <= floor else ''}{told[1] / 1024:.0f} MiB"


class Figures:
    """The rows of the table, each told as it is measured."""

    def __init__(self):
        self.rows, self.rises = [], []

    def part(self, title):
        print(title, flush=True)
        self.rows.append(f"| **{title}** | | | | | |")

    def row(self, what, ours, beside="", time=None, memory=None, most_time=None, most_memory=None):
        """A row with the factors of time and memory, and how much each may be, where that is set."""
        wanted = []
        for factor, most, name in ((time, most_time, "time"), (memory, most_memory, "memory")):
            if factor is not None and most is not None:
                wanted.append(f"{name} {most:g}: {'holds' if factor <= most else 'does not hold'}")
        cells = [what, ours, beside, *("" if it is None else f"{it:.2f}" for it in (time, memory)), "; ".join(wanted)]
        self.rows.append(f"| {' | '.join(cells)} |")
        print(f"  {', '.join(it for it in cells if it)}", flush=True)

    def rise(self, what, points):
        """What a byte costs more in a long file than in one of a quarter of its length, start-up aside: by the rise from the first of
        three sizes, each with its seconds. A cost that grows by the square shows as 3 or more."""
        near, far = ((seconds - points[0][1]) / (size - points[0][0]) for size, seconds in points[1:])
        self.rises.append((far / max(near, 1e-12), what))

    def table(self):
        worst, what = max(self.rises)
        self.part("Growth")
        self.row(f"a byte more, beside one in a file of a quarter of the size; the most of {len(self.rises)}", what, "", worst, None, 2)
        return [*HEADINGS, *self.rows]


# ---- processes


def watched(words, actions):
    """Starts a program by peak.c, and returns where that tells of it, and its process."""
    read, write = os.pipe()
    os.set_inheritable(write, True)
    child = os.posix_spawn(PEAK, [PEAK, str(write), *words], os.environ, file_actions=actions)
    os.close(write)
    return read, child


def told_of(words, read, child):
    """Seconds and peak KiB of a program that peak.c was to run, once it has ended."""
    with os.fdopen(read) as it:
        told = it.read().split()
    os.waitpid(child, 0)
    if len(told) != 3 or int(told[0]):
        sys.exit(f"{words[0]} did not end well: {' '.join(told[:1])}")
    return int(told[1]) / 1e9, int(told[2])


def once(words, to_pipe=False):
    """Seconds and peak KiB of one process, from its start until it has ended, with its output to /dev/null,
    or read from a pipe as it comes."""
    actions, out = [(os.POSIX_SPAWN_OPEN, 0, os.devnull, os.O_RDONLY, 0)], None
    if to_pipe:
        out, into = os.pipe()
        actions += [(os.POSIX_SPAWN_DUP2, into, 1), (os.POSIX_SPAWN_CLOSE, out)]
    else:
        actions += [(os.POSIX_SPAWN_OPEN, 1, os.devnull, os.O_WRONLY, 0)]
    read, child = watched(words, actions)
    if to_pipe:
        os.close(into)
        while os.read(out, MIB):
            pass
        os.close(out)
    return told_of(words, read, child)


def held_by_all():
    """KiB that the system counts for each process, however little it holds."""
    return once(["/bin/true"])[1] * 1.02


def medians(rounds, *runs, to_pipe=False):
    """The median seconds and peak KiB of each command, run turn by turn."""
    told = [[once(it, to_pipe) for it in runs] for _ in range(rounds)]
    return [[statistics.median(which) for which in zip(*column)] for column in zip(*told)]


def answered(part, file, *more):
    """The number that the probe puts out for a part, and peak KiB of its process."""
    out, into = os.pipe()
    words = [PROBE, part, file, *more]
    read, child = watched(words, [(os.POSIX_SPAWN_DUP2, into, 1), (os.POSIX_SPAWN_CLOSE, out)])
    os.close(into)
    with os.fdopen(out) as it:
        told = it.read()
    _, peak = told_of(words, read, child)
    return int(told), peak


def timed(part, file, *more):
    """Seconds that the probe says a part took, and peak KiB. Each time is that of a new process."""
    nanoseconds, peak = answered(part, file, *more)
    return nanoseconds / 1e9, peak


def parts(rounds, *runs):
    """The median seconds and peak KiB of each part, run turn by turn."""
    told = [[timed(*it) if it[0] in ("cut", "parse", "compile", "read", "data") else once(it) for it in runs] for _ in range(rounds)]
    return [[statistics.median(which) for which in zip(*column)] for column in zip(*told)]


# ---- files


def write(path, pieces):
    """Writes a file, and returns its path."""
    with open(path, "wb") as it:
        for piece in pieces:
            it.write(piece)
    return path


def repeated(path, piece, size):
    """A file of that many bytes or a few less, the same piece over and over."""
    whole, rest = divmod(size // len(piece), 1000)
    return write(path, (*(piece * 1000 for _ in range(whole)), piece * rest))


def listed(items):
    """A JSON list, item by item."""
    yield b"["
    for number, it in enumerate(items):
        yield b"," * (number > 0) + it
    yield b"]"


def members(size):
    """A JSON list of that many bytes, nearly: members as an export of accounts has them."""

    def account(number):
        return b'{"id":%d,"name":"account %d","is_open":%s,"owner":null,"tags":["a","b","%d"],"sums":[%d,-%d,0]}' % (
            number, number, b"true" if number % 3 else b"false", number % 97, number * 17, number + 1)

    def whole():
        written, number = 1, 0
        while written < size:
            it = account(number)
            yield it
            written, number = written + len(it) + 1, number + 1

    return listed(whole())


def rows(count):
    return listed(json.dumps({"id": it, "name": f"<name> & {it}", "ok": it % 2 == 0}).encode() for it in range(count))


TABLE = [b"{{range .}}<tr><td>{{.id}}</td><td>{{.name}}</td><td>{{if .ok}}yes{{else}}no{{end}}</td></tr>\n{{end}}"]


def tree(levels):
    """A tree with two branches at each level, as data."""
    return {"n": levels, "l": tree(levels - 1), "r": tree(levels - 1)} if levels else None


def definitions(count):
    """This many definitions, each called once."""
    return (b'{{define "t%d"}}%d{{end}}{{template "t%d"}}\n' % (n, n, n) for n in range(count))


def doubling(levels):
    """Templates of which each calls the next twice: two to the power of the levels calls of the last one."""
    calls = [b'{{define "t%d"}}{{template "t%d"}}{{template "t%d"}}{{end}}' % (n, n + 1, n + 1) for n in range(levels)]
    return [*calls, b'{{define "t%d"}}{{end}}{{template "t0"}}' % levels]


# ---- whole processes, beside Go


def go_renderer(folder):
    """A program over Go's own text/template, built once, or none where Go is not there."""
    program = f"{folder}/gotemplate"
    if not shutil.which(compare.newest_go()):
        return None
    if not os.path.exists(program):
        compare.build(program)
    return program


def renders(folder):
    """Whole renders: what each is, its template and its data, and how much of Go's time and memory it may take."""
    data = write(f"{folder}/user", [b'{"user":{"name":"Ada"},"n":7,"a":1,"b":"x","c":[1,2]}'])
    numbers = write(f"{folder}/numbers", listed(b"7" for _ in range(100_000)))
    million = write(f"{folder}/million", listed(b"%d" % it for it in range(1_000_000)))
    table, many = (write(f"{folder}/rows{it}", rows(it)) for it in (20_000, 30_000))
    accounts = write(f"{folder}/members", members(10_000_000))
    branches = write(f"{folder}/tree", [json.dumps(tree(14)).encode()])
    recursion = b'{{define "t"}}{{if .}}{{.n}}{{template "t" .l}}{{template "t" .r}}{{end}}{{end}}{{template "t" .}}'
    return (
        ("`examples/hello`", [b"Hello, {{.user.name}}!\n"], data, 0.4, 1),
        ("2 MiB of short actions", [b"{{.user.name}} has {{ .n }}.\n" * (2 * MIB // 29)], data, 0.4, 1),
        ("2 MB of lines of six actions", [SMALL_ACTIONS * (2_000_000 // len(SMALL_ACTIONS))], data, 0.4, 1),
        ("a range over 100,000 elements with an `if` inside", [b"{{range .}}{{if .}}{{.}},{{end}}{{end}}"], numbers, 0.4, 1),
        ("a range over a list of 1,000,000 elements", [b"{{range .}}{{.}}\n{{end}}"], million, 0.4, 1),
        ("a table of 20,000 rows", TABLE, table, 0.4, 1),
        ("10,000 calls of `printf` and `len`", [b'{{printf "%5d" (len "ab")}}\n' * 10_000], data, 0.4, 1),
        ("a range of `printf`, 100,000 times", [b'{{range $i, $e := .}}{{printf "%5d %-10d|" $i $e}}{{end}}'], numbers, 0.4, 1),
        ("`printf` over 30,000 rows", [b'{{range .}}{{printf "%5d %s" .id .name}}\n{{end}}'], many, 0.4, 1),
        ("`html` and `urlquery` over 30,000 rows", [b"{{range .}}{{html .name}} {{urlquery .name}}\n{{end}}"], many, 0.4, 1),
        ("a tree of 16,383 nodes by recursion", [recursion], branches, 0.4, 1),
        ("10 MB of JSON printed", [b"{{.}}"], accounts, 0.4, 1),
        ("10 MB of JSON and a small template", [b"{{len .}}\n"], accounts, 0.6, 1.2),
        ("10,000 definitions and a call of each", definitions(10_000), data, 0.4, 1),
        ("18 levels of two calls each", doubling(18), data, 0.4, 1),
        ("10 MB of text", [LINE * 1000] * (10_000_000 // len(LINE) // 1000), data, 0.45, 1),
        ("16 MiB of text", [LINE * 1000] * (16 * MIB // len(LINE) // 1000), data, 0.45, 1),
    )


def bench_renders(figures, folder):
    go = go_renderer(folder)
    figures.part("Whole processes" + (f", beside {go_name()}" if go else ""))
    times = []
    for name, pieces, held, *most in renders(folder):
        file, floor = write(f"{folder}/template", pieces), held_by_all()
        ours, *theirs = medians(15, [harness.PROGRAM, "--data", held, file], *([[go, "render", file, held]] if go else []))
        time = ours[0] / theirs[0][0] if theirs else None
        times += [time] if theirs else []
        memory = ours[1] / theirs[0][1] if theirs and min(ours[1], theirs[0][1]) > floor else None
        beside = with_memory(theirs[0], floor) if theirs else ""
        figures.row(name, with_memory(ours, floor), beside, time, memory, *most)
    if times:
        figures.row("the geometric mean of these", "", "", statistics.geometric_mean(times))
    file = write(f"{folder}/template", [b"{{range 10000000}}{{.}}\n{{end}}"])
    (ours,) = medians(5, [harness.PROGRAM, "--steps", "100000000", file])
    figures.row("a range over 10,000,000 integers", f"{with_memory(ours)}, {ours[0] / 1e7 * 1e9:.0f} ns an element")


# ---- the program, part by part


def bench_program(figures, folder):
    figures.part("The program, by whole processes")
    at = f"{harness.TOP}/examples/hello"
    whole = [harness.PROGRAM, "--data", f"{at}/data.json", f"{at}/hello.tmpl"]
    once(whole)
    ours, bare = medians(201, whole, ["/bin/true"])
    figures.row("a whole render of `examples/hello`", with_memory(ours), f"`/bin/true` {shown(bare[0])}", ours[0] / bare[0], None, 1.5)
    for where, to_pipe in (("to /dev/null", False), ("to a pipe that is read", True)):
        points = []
        for size in (1, 4, 16):
            file = repeated(f"{folder}/text", LINE, size * MIB)
            ours, cat = medians(21, [harness.PROGRAM, file], ["cat", file], to_pipe=to_pipe)
            points.append((size * MIB, ours[0]))
        figures.row(f"16 MiB of text {where}", with_memory(ours), f"`cat` {shown(cat[0])}", ours[0] / cat[0], None, 10)
        figures.rise(f"text {where}", points)
    file = repeated(f"{folder}/template", b"{{.}}", 16 * MIB)
    (ours,) = medians(3, [harness.PROGRAM, file])
    figures.row("16 MiB of `{{.}}`", with_memory(ours), "1,100 MB", None, ours[1] * 1024 / 1e6 / 1100, None, 1)
    bench_check(figures, folder)


def bench_check(figures, folder):
    """The check of a long template against a long schema."""
    names = [f"name{it}" for it in range(150)]
    lists = {"type": "array", "items": {"type": "string"}}
    schema = json.dumps({"type": "object", "required": names, "properties": {name: lists for name in names}}, indent=1)
    lines = ["{{range .%s}}{{len .}}{{end}}{{if .%s}}{{len .%s}}{{end}}\n" % (names[it % 150], names[it % 149], names[it % 149]) for it in range(5000)]
    words = ["--schema", write(f"{folder}/schema", [schema.encode()]), write(f"{folder}/lines", ["".join(lines).encode()])]
    (ours,) = medians(11, [harness.CHECKER, *words])
    figures.row(f"`tmpl-check --schema`: 5,000 lines, and {len(schema.splitlines()):,} of the schema", with_memory(ours), "1 s", ours[0], None, 1)


def bench_growth(figures, folder):
    """Rows that have no other beside them: how the time grows with the size."""

    def grow(what, sizes, command):
        figures.rise(what, [(size, medians(11, command(size))[0][0]) for size in sizes])

    data = write(f"{folder}/data", [b'{"user":{"name":"Ada"},"n":7}'])
    dot = write(f"{folder}/dot", [b"{{.}}"])
    each = write(f"{folder}/range", [b"{{range .}}{{if .}}{{.}},{{end}}{{end}}"])
    ours = harness.PROGRAM
    grow("short actions", (MIB // 2, 2 * MIB, 8 * MIB),
         lambda size: [ours, "--data", data, repeated(f"{folder}/actions", b"{{.user.name}} has {{ .n }}.\n", size)])
    grow("elements of a range", (10_000, 25_000, 100_000),
         lambda size: [ours, "--data", write(f"{folder}/elements", listed(b"7" for _ in range(size))), each])
    grow("calls of printf", (1_000, 2_500, 10_000), lambda size: [ours, write(f"{folder}/called", [b'{{printf "%5d" (len "ab")}}\n' * size])])
    grow("definitions", (1_000, 2_500, 10_000), lambda size: [ours, write(f"{folder}/defined", definitions(size))])
    grow("calls", (2**14, 2**16, 2**18), lambda size: [ours, write(f"{folder}/doubled", doubling(size.bit_length() - 1))])
    grow("data printed", (1_000_000, 2_500_000, 10_000_000),
         lambda size: [ours, "--data", write(f"{folder}/accounts", members(size)), dot])


def bench_cut(figures, folder):
    for name, piece in (("text", LINE), ("lines of one letter", b"a\n"), ("short actions", b"{{.a}}")):
        points = []
        for size in (MIB, 4 * MIB, 16 * MIB):
            file = repeated(f"{folder}/cut", piece, size)
            ours, lines = parts(11, ("cut", file), ["wc", "-l", file])
            points.append((size, ours[0]))
        most = (3, 3) if piece == LINE else ()
        figures.row(f"the cut of 16 MiB of {name}", f"{with_memory(ours)}, {16 * MIB / 1e6 / ours[0]:.0f} MB/s",
                    f"`wc -l`, a whole process, {shown(lines[0])}; memory beside the file", ours[0] / lines[0], ours[1] / 1024 / 16, *most)
        figures.rise(f"the cut of {name}", points)


def bench_reading(figures, folder):
    tiny = write(f"{folder}/tiny", [b"x"])
    for name, piece in (
        ("lines of six actions", SMALL_ACTIONS),
        ("constants, strings and parentheses", b'{{print 12 -0x1F (len "a\\tb") (or (eq .a `c`) \'d\')}}\n'),
    ):
        points = []
        for size in (10_000, 250_000, 1_000_000):
            file = repeated(f"{folder}/parsed", piece, size)
            ours, bare = medians(21, [harness.PROGRAM, tiny, file], [harness.PROGRAM, tiny])
            points.append((size, ours[0]))
        spent = max(ours[0] - bare[0], 1e-9)
        figures.row(f"the reading of 1 MB of {name}", f"{shown(spent)}, {1 / spent:.0f} MB/s")
        figures.rise(f"the reading of {name}", points)
    for name, piece in (("lines of six actions", SMALL_ACTIONS), ("actions of one field", b"{{.a}}\n"), ("definitions", None)):
        points = []
        for size in (10_000, 250_000, 1_000_000):
            file = repeated(f"{folder}/printed", piece, size) if piece else write(f"{folder}/printed", definitions(size // 42))
            whole, bare, parsed = parts(21, [harness.PROGRAM, "--print", tiny, file], [harness.PROGRAM, "--print", tiny], ("parse", file))
            points.append((size, whole[0]))
        spent = max(whole[0] - bare[0] - parsed[0], 0)
        told = shown(spent) if spent > parsed[0] / 50 else "less than the noise"
        figures.row(f"the printing of 1 MB of {name}", told, f"parsing it {shown(parsed[0])}", spent / parsed[0], None, 0.25)
        figures.rise(f"the printing of {name}", points)


def bench_compiling(figures, folder):
    for name, piece in (("lines of six actions", SMALL_ACTIONS), ("actions of one field", b"{{.a}}\n"), ("`{{.}}`", b"{{.}}")):
        points = []
        for size in (10_000, 1_000_000, 4_000_000):
            file = repeated(f"{folder}/compiled", piece, size)
            parsed, compiled = parts(15, ("parse", file), ("compile", file))
            points.append((size, compiled[0]))
            if size == 1_000_000:
                code = answered("code", file)[0] / os.path.getsize(file)
                figures.row(f"the compiling of 1 MB of {name}", f"{shown(compiled[0])}, {code:.0f} bytes of code a byte (at most 40 wanted)",
                            f"parsing it {shown(parsed[0])}", compiled[0] / parsed[0], None, 0.25)
        figures.rise(f"the compiling of {name}", points)


def bench_calls(figures, folder):
    shim = f"{folder}/shim.so"
    sweep.build_shim("fail_alloc.c", shim)
    for function, arguments, most in calls.TIMED:
        file = write(f"{folder}/arguments", [json.dumps(arguments).encode()])
        seconds = statistics.median(timed("call", file, function, "1000000")[0] for _ in range(3)) / 1e6
        size = " over 1 kB" if arguments == [calls.LONG] else ""
        taken = calls.a_call(shim, folder, function, arguments)
        figures.row(f"a call of `{function}`{size}", f"{shown(seconds)}, {taken:g} allocations (at most {most} wanted)")


def bench_data(figures, folder):
    """What it costs to read a file to data, beside serde_json's own tree of the same file, of which it is made."""
    for name, pieces in (("10 MB of accounts", members(10_000_000)), ("a table of 20,000 rows", rows(20_000))):
        file = write(f"{folder}/data", pieces)
        read, data = parts(15, ("read", file), ("data", file))
        figures.row(f"`from_json` of {name}", with_memory(data), f"`serde_json`'s reading in it {with_memory(read)}", data[0] / read[0], data[1] / read[1])


# ---- the library, in one process

# The same templates in the language that Jinja2 and Tera share.
JINJA = {
    "`examples/hello`": "Hello, {{ data.user.name }}!\n",
    "a table of 20,000 rows": "{% for row in data %}<tr><td>{{ row.id }}</td><td>{{ row.name }}</td>"
    "<td>{% if row.ok %}yes{% else %}no{% endif %}</td></tr>\n{% endfor %}",
}
MOST = {("`examples/hello`", True): 1, ("a table of 20,000 rows", True): 0.4}
# And in that of ctemplate, with the lines of which each fills the section ROW, as cpp_peer.cc reads them.
CTEMPLATE = {
    "`examples/hello`": ("{{#ROW}}Hello, {{NAME}}!\n{{/ROW}}", [b"NAME=Ada\n"]),
    "a table of 20,000 rows": (
        "{{#ROW}}<tr><td>{{ID}}</td><td>{{NAME}}</td><td>{{#OK}}yes{{/OK}}{{#NOT_OK}}no{{/NOT_OK}}</td></tr>\n{{/ROW}}",
        [b"ID=%d\tNAME=<name> & %d\t%s\n" % (it, it, b"NOT_OK" if it % 2 else b"OK") for it in range(20_000)],
    ),
}


def time_jinja(source, held, count):
    """Nanoseconds of a render by Jinja2 of what was parsed and read once, the least and the median of 31; none where it is not there."""
    try:
        import jinja2
    except ImportError:
        return None
    template, times = jinja2.Environment().from_string(source), []
    with open(held, "rb") as file:
        data = json.load(file)
    for _ in range(31):
        start = time.perf_counter()
        for _ in range(count):
            template.render(data=data)
        times.append((time.perf_counter() - start) / count * 1e9)
    return min(times), statistics.median(times)


CRATES = "/usr/share/cargo/registry"  # where Debian's packages of Rust keep their sources
SOURCES = f"""[source.crates-io]
replace-with = "packaged"
[source.packaged]
directory = "{CRATES}"
"""


def tera_renderer(folder):
    """A program over Tera, a template engine in Rust, built once of the sources of Debian's package; none where they or Cargo are not there."""
    if os.path.exists(f"{folder}/rust_peer"):
        program = f"{folder}/rust_peer/target/release/rust_peer"
        return program if os.path.exists(program) else None
    if not shutil.which("cargo") or not glob.glob(f"{CRATES}/tera-*"):
        print("  Tera is left out: it needs Cargo and the package librust-tera-dev")
        return None
    at = f"{folder}/rust_peer"
    shutil.copytree(f"{harness.TESTS}/bench/rust_peer", at, ignore=shutil.ignore_patterns("target", "Cargo.lock"))
    os.mkdir(f"{at}/.cargo")
    write(f"{at}/.cargo/config.toml", [SOURCES.encode()])
    built = subprocess.run(["cargo", "build", "--quiet", "--release", "--offline"], cwd=at, stderr=subprocess.PIPE, text=True)
    if built.returncode:
        print("  Tera is left out, since it could not be built:", *built.stderr.splitlines()[:1])
        return None
    return f"{at}/target/release/rust_peer"


SIZES = (1_000, 10_000, 100_000, 1_000_000)
ONE_BY_JINJA = """
import json, sys
import jinja2
with open(sys.argv[1]) as template, open(sys.argv[2]) as data:
    sys.stdout.write(jinja2.Environment().from_string(template.read()).render(data=json.load(data)))
"""


def bench_sizes(figures, folder):
    """A table of more and more rows, by whole processes of each engine that is there."""
    figures.part("As the work grows, by whole processes")
    file, other = write(f"{folder}/template", TABLE), write(f"{folder}/other", [JINJA["a table of 20,000 rows"].encode()])
    go, tera, floor = go_renderer(folder), tera_renderer(folder), held_by_all()
    for size in SIZES:
        held = write(f"{folder}/sized", rows(size))
        runs = {"tmpl": [harness.PROGRAM, "--data", held, file]}
        runs |= {"Go": [go, "render", file, held]} if go else {}
        runs |= {"Tera": [tera, other, held]} if tera else {}
        runs |= {"Jinja2": [sys.executable, "-c", ONE_BY_JINJA, other, held]} if importlib.util.find_spec("jinja2") else {}
        told = dict(zip(runs, medians(15 if size <= 10_000 else 5, *runs.values())))
        spelled = {who: with_memory(it, floor) for who, it in told.items()}
        factors = (told["tmpl"][it] / told["Go"][it] if go else None for it in (0, 1))
        figures.row(f"{size:,} rows", spelled.pop("tmpl"), "; ".join(f"{who} {it}" for who, it in spelled.items()), *factors)


def cpp_renderer(folder):
    """A program over ctemplate, an engine in C++; none where its library or a compiler is not there."""
    program = f"{folder}/cpp_peer"
    words = ["c++", "-O2", f"{harness.TESTS}/bench/cpp_peer.cc", "-lctemplate_nothreads", "-o", program]
    if shutil.which("c++") and subprocess.run(words, stderr=subprocess.DEVNULL).returncode == 0:
        return program
    print("  ctemplate is left out: it needs a compiler for C++ and the package libctemplate-dev")
    return None


def turns(programs, count):
    """Of each program the least time and the median of the medians, in nanoseconds, over three turns of 31 times each."""
    told = {who: [] for who in programs}
    for _ in range(3):
        for who, (words, kept) in programs.items():
            ran = subprocess.run([*words, str(count), *kept], stdout=subprocess.PIPE, check=True)
            told[who].append([int(it) for it in ran.stdout.split()][:2])
    return {who: (min(it[0] for it in times), statistics.median(it[1] for it in times)) for who, times in told.items()}


def bench_library(figures, folder):
    figures.part("The C library, in one process: the least, the median of 31 renders")
    go, speed, library = go_renderer(folder), f"{folder}/speed", f"{harness.TOP}/bindings/out/libtmpl.a"
    tera, cpp = tera_renderer(folder), cpp_renderer(folder)
    subprocess.run(["cc", "-O2", f"-I{harness.TOP}/bindings/c", f"{harness.TESTS}/bench/speed.c", library, "-pthread", "-o", speed], check=True)
    for name, pieces, held, *_ in renders(folder):
        if name not in JINJA:
            continue
        file, count = write(f"{folder}/template", pieces), 10_000 if "hello" in name else 1
        other = write(f"{folder}/other", [JINJA[name].encode()])
        third, filled = write(f"{folder}/third", [CTEMPLATE[name][0].encode()]), write(f"{folder}/filled", CTEMPLATE[name][1])
        for how, kept in (("parsed and read each time", []), ("parsed and read once", ["kept"])):
            programs = {"tmpl": ([speed, file, held], kept)}
            programs |= {"Go": ([go, "times", file, held], kept)} if go else {}
            programs |= {"Tera": ([tera, other, held], kept)} if tera else {}
            programs |= {"ctemplate": ([cpp, third, filled], [])} if cpp and kept else {}
            told = turns(programs, count)
            if kept and (theirs := time_jinja(JINJA[name], held, count)):
                told["Jinja2"] = theirs
            spelled = {who: f"{shown(least / 1e9)}, {shown(middle / 1e9)}" for who, (least, middle) in told.items()}
            beside = "; ".join(f"{who} {it}" for who, it in spelled.items() if who != "tmpl")
            factor = told["tmpl"][1] / told["Go"][1] if go else None
            figures.row(f"{name}, {how}", spelled["tmpl"], beside, factor, None, MOST.get((name, bool(kept))))
    bench_kept(figures, speed, folder)


def bench_kept(figures, speed, folder):
    """A small render of what is kept, beside templates of the same set that it does not call."""
    held = write(f"{folder}/data", [b'{"user": {"name": "Ada"}}'])
    files = {
        name: write(f"{folder}/kept{number}", [*pieces, b"Hello, {{.user.name}}!\n"])
        for number, (name, pieces) in enumerate([
            ("alone", []),
            *((f"beside {count:,} definitions", [b'{{define "t%d"}}text {{.a}} of %d{{end}}' % (it, it) for it in range(count)])
              for count in (100, 1000, 10_000)),
            ("beside a template that calls itself", [b'{{define "r"}}{{.a}}{{template "r" .b}}{{end}}']),
            ("beside a template that calls itself, at depth 100,000", [b'{{define "r"}}{{.a}}{{template "r" .b}}{{end}}']),
        ])
    }
    told = {}
    for name, file in files.items():
        program = [speed, file, held], ["kept", *(["100000"] if "100,000" in name else [])]
        told[name] = turns({name: program}, 1000)[name]
        least, middle = told[name]
        factor = middle / told["alone"][1]
        figures.row(f"a kept `Hello`, {name}", f"{shown(least / 1e9)}, {shown(middle / 1e9)}", "alone", factor, None, 1.2)
    bench_python(figures, files, held)


THREADS = (1, 2, 3, 4)


PYTHON = """
import sys, time
from concurrent.futures import ThreadPoolExecutor
import tmpl
file, held, count, threads = sys.argv[1], open(sys.argv[2], "rb").read(), int(sys.argv[3]), int(sys.argv[4])
templates, times = tmpl.Templates({"m": open(file, "rb").read()}), []
def work(_):
    for _ in range(count):
        templates.render_bytes("m", held)
with ThreadPoolExecutor(threads) as pool:
    for _ in range(31):
        start = time.perf_counter_ns()
        list(pool.map(work, range(threads)))
        times.append((time.perf_counter_ns() - start) / count)
print(min(times), sorted(times)[15])
"""


def bench_python(figures, files, held):
    """The same by the wrapper for Python, which has one lock for all of its threads but in the calls of the library."""
    environment = {**os.environ, "PYTHONPATH": f"{harness.TOP}/bindings/python", "LIBTMPL": f"{harness.TOP}/bindings/out/libtmpl.so"}
    told = {}
    for name, threads in [*((name, 1) for name in files if "calls itself" not in name), *(("alone", it) for it in THREADS[1:])]:
        words = [sys.executable, "-c", PYTHON, files[name], held, "2000", str(threads)]
        done = subprocess.run(words, env=environment, stdout=subprocess.PIPE, check=True, text=True)
        least, middle = map(float, done.stdout.split())
        what, first = f"a kept `Hello` by Python, {name}", told.setdefault("alone", middle)
        figures.row(what + (f", a render of each of {threads} threads" if threads > 1 else ""), f"{shown(least / 1e9)}, {shown(middle / 1e9)}", "alone, one thread", middle / first)


# ---- the page


def go_name():
    said = subprocess.run([compare.newest_go(), "version"], stdout=subprocess.PIPE, check=True, text=True).stdout
    return "Go " + re.search(r"go(\d+(\.\d+)*)", said)[1]


def machine():
    with open("/proc/cpuinfo", encoding="utf-8") as it:
        name = re.search(r"model name\s*: (.*)", it.read())
    return f"{os.cpu_count()} processors ({name[1] if name else platform.machine()}), Linux {platform.release().split('-')[0]}"


def peers(folder):
    found = [go_name()] if go_renderer(folder) else []
    try:
        import jinja2

        found.append(f"Jinja2 {jinja2.__version__}")
    except ImportError:
        pass
    found += [f"Tera {it.rsplit('-', 1)[1]}" for it in glob.glob(f"{CRATES}/tera-*")]
    if shutil.which("dpkg-query"):
        asked = ["dpkg-query", "--show", "--showformat=${Version}", "libctemplate-dev"]
        told = subprocess.run(asked, stdout=subprocess.PIPE, stderr=subprocess.DEVNULL, text=True)
        found += [f"ctemplate {told.stdout.split('-')[0]}"] if told.returncode == 0 else []
    return ", ".join(found) or "none"


def commit():
    said = subprocess.run(["git", "-C", harness.TOP, "describe", "--always", "--dirty=, changed"], stdout=subprocess.PIPE, text=True)
    return said.stdout.strip() or "unknown"


def head(beside):
    """The line over a table: when and where it was measured."""
    day = datetime.datetime.now(datetime.timezone.utc)
    return f"Measured on {day:%-d %B %Y} of the tree `{commit()}`, on {machine()}, beside {beside}."


def publish(lines, begin=BEGIN, end=END):
    """Writes a table between its two marks."""
    with open(PAGE, encoding="utf-8") as it:
        before, rest = it.read().split(begin)
    with open(PAGE, "w", encoding="utf-8") as it:
        it.write(before + begin + "".join(f"{line}\n" for line in lines) + end + rest.split(end)[1])


def main(words):
    global PEAK
    if not harness.is_built():
        return 1
    figures = Figures()
    with tempfile.TemporaryDirectory() as folder:
        PEAK = f"{folder}/peak"
        subprocess.run(["cc", "-O2", f"{harness.TESTS}/bench/peak.c", "-o", PEAK], check=True)
        beside = peers(folder)
        for bench in (bench_renders, bench_sizes, bench_library, bench_program, bench_cut, bench_reading, bench_compiling, bench_calls, bench_data, bench_growth):
            bench(figures, folder)
    lines = [head(beside), "", *figures.table()]
    if "--dry" in words:
        print(*lines, sep="\n")
    else:
        publish(lines)
    return 0


if __name__ == "__main__":
    sys.exit(main(sys.argv[1:]))
