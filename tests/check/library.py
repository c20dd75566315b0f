"""Calls the C library by C, C++ and Python over the rows, in threads, and with each allocation refused in turn. The library is that in
bindings/out, which `make lib` builds of what was proved, where it is up to date; else that in out/tests/lib, whose engine is compiled without
proofs. Its first line says which. The rows of tests/rows that
need no words and no files of the system go through one call each, by the Python wrapper, and through its `render_bytes`: text, line and
status must be those of the row, but that lines call the data `data`. So must those of two renders of a set and data that are kept, and of a
program that is kept, into lent memory. Rows with short texts and lines are called with room of each size. tests/check/library.c refuses
each allocation of calls in turn, renders in eight threads at the same time, looks that memory stays flat, and runs under valgrind where
that is there. The header is compiled as C and as C++, what is installed is used by pkg-config, the wheel for Python is unpacked and used,
and the programs of docs/EMBEDDING.md and README.md for C and Python are run; so is examples/letters.py where Dask's scheduler is there.
With --bindings it runs those for Go and Rust, and the tests of these two bindings, where Go and Cargo are installed, and nothing else."""
import base64
import copy
import gc
import hashlib
import json
import os
import pickle
import re
import resource
import shutil
import subprocess
import sys
import tempfile
import time
import zipfile
from concurrent.futures import ThreadPoolExecutor
from decimal import Decimal

from tests.lib import harness, tools
from tests.rows import problem_rows, schema_rows

BINDINGS = f"{harness.TOP}/bindings"
OUT = f"{BINDINGS}/out"  # or what `choose` takes
FOR_TESTS = f"{harness.TOP}/out/tests/lib"
LEAST = 1400  # rows
SIZES = 24  # bytes up to which texts and lines are called with room of each size
LEAST_SIZES = 30900  # calls for that
LEAST_LIMITS = 7400  # renders with a limit of the text
LEAST_CASES = 20000  # of tests/check/library.c
GUARD = b"\xa5" * 8  # after lent memory
SWITCHES = {b"--data", b"--missingkey", b"--name", b"--depth", b"--steps"}
BLOCK = re.compile(r"^```(c|cpp|python|go|rust)\n(.*?)^```\n+(?:It puts out\n+)?```text\n(.*?)^```$", re.MULTILINE | re.DOTALL)
NAMES = [
    *("tmpl_check", "tmpl_check_schema", "tmpl_data_free", "tmpl_data_read", "tmpl_data_share", "tmpl_limit_memory", "tmpl_program_free", "tmpl_program_make"),
    *("tmpl_program_share", "tmpl_render"),
    *("tmpl_render_program", "tmpl_render_set", "tmpl_render_text", "tmpl_set_add", "tmpl_set_free", "tmpl_set_print", "tmpl_text_free"),
    "tmpl_version",
]
WARNINGS = ["-Wall", "-Wextra", "-pedantic", "-Werror"]


def ran(*words, **how):
    """The status and all output of a program."""
    it = subprocess.run(words, stdin=subprocess.DEVNULL, stdout=subprocess.PIPE, stderr=subprocess.STDOUT, **how)
    return it.returncode, it.stdout.decode(errors="replace")


def choose():
    """Takes the library that `make lib` built, where it is up to date; else has one built for the tests alone. Whether there is one."""
    global OUT
    is_proved = "FOR_TESTS" not in os.environ and ran("make", "-q", "-C", harness.TOP, "lib")[0] == 0
    if not is_proved:
        os.environ["FOR_TESTS"], OUT = "1", FOR_TESTS
        status, said = ran("make", "-s", "-C", harness.TOP, "lib")
        if status:
            print(said)
            return False
    how = "built of what was proved" if is_proved else "its engine is compiled without proofs"
    print(f"the library in {os.path.relpath(OUT, harness.TOP)}: {how}", flush=True)
    return True


# ---- rows


class Call:
    """A row as one call."""

    def __init__(self, row, files, name, data, settings, line):
        self.row, self.files, self.name, self.data, self.settings, self.line = row, files, name, data, settings, line

    def into(self, size, line_size):
        return tmpl.render_into(self.files, self.name, self.data, tmpl._Settings(0, *self.settings), size, line_size)


def options_of(words):
    """The options as a dict, or none where a word is no option of a run."""
    found, rest = {}, iter(words)
    for word in rest:
        key, is_joined, value = word.partition(b"=")
        if key in SWITCHES:
            found[key] = value if is_joined else next(rest)
        elif word == b"--print":
            found[word] = b""
        else:
            return None
    return found


def call_of(row):
    """The call that a row is, or none where it needs words or files of the system."""
    if row.status in (2, 3) or row.pipes or row.stdin is not None or row.stdout != "pipe" or row.stderr != "pipe":
        return None
    words, files, data = harness.parted(row.words)
    options = options_of(words)
    if options is None or b"-h" in row.words or b"--help" in row.words:
        return None
    held = [(name, row.files.get(os.fsdecode(name))) for name in files]
    is_print = b"--print" in options
    what = b"" if data is None or is_print else row.files.get(os.fsdecode(data))
    if any(it is None for _, it in held) or what is None or (what == b"" and data is not None and not is_print):
        return None  # no file is read, and no bytes are no data
    name = options.get(b"--name", os.path.basename(files[0]))
    mode = tmpl.MISSING_KEY[options.get(b"--missingkey", b"default").decode()]
    settings = (int(options.get(b"--steps", 0)), int(options.get(b"--depth", 0)), mode, int(is_print))
    line = row.err.replace(b"tmpl: " + data + b":", b"tmpl: data:", 1) if row.status == tmpl.DATA else row.err
    return Call(row, held, name, what, settings, line)


def judge(call):
    """One call with room for all, and the same by the wrapper."""
    row = call.row
    status, out, err = call.into(len(row.out) + 1, len(call.line) + 1)
    got, wanted = (status, out.output(), err.output()), (row.status, row.out, call.line)
    needed = (out.buffer.needed, err.buffer.needed)
    wrong = [f"    got {got[0]} {harness.short(got[1])} {harness.short(got[2])}"] if got != wanted else []
    if needed != (len(row.out), len(call.line)):
        wrong.append(f"    it says that it needs {needed}")
    steps, depth, mode, is_print = call.settings
    how = {"missing_key": list(tmpl.MISSING_KEY)[mode], "depth": depth, "steps": steps, "printed": bool(is_print)}
    try:
        came = (0, tmpl.render_bytes(call.files, call.name, call.data, **how), "")
    except tmpl.TemplateError as error:
        came = (error.status, error.text, error.line)
    if came != (row.status, row.out, call.line.decode("utf-8", "replace").rstrip("\n")):
        wrong.append(f"    the wrapper gives {came[0]} {harness.short(came[1])} {came[2]!r}")
    return row.name, 1, wrong


def came_of(call):
    """The status, text and line of a call of the wrapper."""
    try:
        return 0, call() or b"", ""
    except tmpl.TemplateError as error:
        return error.status, error.text, error.line


def judge_kept(call):
    """The same by what is kept: the files added once, the data read once, and two renders."""
    row, wrong = call.row, []
    steps, depth, mode, is_print = call.settings
    how = {"missing_key": list(tmpl.MISSING_KEY)[mode], "depth": depth, "steps": steps, "printed": bool(is_print)}
    wanted = (row.status, row.out, call.line.decode("utf-8", "replace").rstrip("\n"))
    templates, stop = tmpl.Templates(), None
    for path, what in call.files:
        stop = came_of(lambda: templates.add(path, what))
        if stop[0]:
            break
    refused = stop is not None and stop[0] != 0
    for _ in range(2):
        came = stop if refused else came_of(lambda: templates.render_bytes(call.name, call.data, **how))
        if came != wanted:
            wrong.append(f"    kept, it gives {came[0]} {harness.short(came[1])} {came[2]!r}")
    if not refused and (is_print or row.status != tmpl.DATA):
        wrong += lent_by(templates, call)
    templates.close()
    return f"{row.name}, kept", 1, wrong


def lent_by(templates, call):
    """What is wrong of the renders of what is kept into lent memory: of the set, and of the program where the set is not printed."""
    worker, wrong, settings = templates._worker(), [], tmpl._Settings(0, *call.settings)
    tmpl._LIBRARY.tmpl_data_read(worker.data, call.data, len(call.data), tmpl._Lent(99).buffer)
    handles = {"set": templates._set} if settings.print else {"set": templates._set, "program": worker.program}
    for name, handle in handles.items():
        out, err = tmpl._Lent(len(call.row.out) + 1), tmpl._Lent(len(call.line) + 1)
        render = getattr(tmpl._LIBRARY, f"tmpl_render_{name}")
        status = render(settings, handle, worker.data, call.name, len(call.name), out.buffer, err.buffer)
        got = (status, out.output(), err.output())
        wrong += [] if got == (call.row.status, call.row.out, call.line) else [f"    of a {name}, it gives {got}"]
    return wrong


def judge_limits(call):
    """Renders with each limit of the text, into lent memory and into a text: the first bytes of it are there, just so many, with status 6 and
    the line of that; where it has no more, it is as without a limit."""
    row, count, wrong = call.row, 0, []
    steps, depth, mode, is_print = call.settings
    how = {"missing_key": list(tmpl.MISSING_KEY)[mode], "depth": depth, "steps": steps, "printed": bool(is_print)}
    with tmpl.Templates(call.files) as templates:
        for limit in range(1, len(row.out) + 2):
            is_over = limit < len(row.out)
            line = b"tmpl: more than %d bytes of output\n" % limit
            wanted = (tmpl.FULL, row.out[:limit], line) if is_over else (row.status, row.out, call.line)
            settings = tmpl._Settings(0, *call.settings, limit)
            status, out, err = tmpl.render_into(call.files, call.name, call.data, settings, len(row.out) + 1, 64 + len(call.line))
            got = [(status, out.output(), err.output())]
            wrong += [f"    a limit of {limit}: {it}" for it in got if it != wanted]
            if not is_print:
                status, text, line = came_of(lambda: templates.render_bytes(call.name, call.data, output=limit, **how))
                got.append((status, text, f"{line}\n".encode() if line else b""))
                wrong += [f"    the wrapper, with a limit of {limit}: {got[1]}"] * (got[1] != wanted)
            wrong += [f"    a limit of {limit}: it needs {out.buffer.needed}"] * (out.buffer.needed != min(limit, len(row.out)))
            count += len(got)
    return f"{row.name}, each limit", count, wrong


def judge_check(call):
    """What is said of the files: something exactly where one is refused, and first the line and the reason of the row."""
    row, lines = call.row, list(map(str, tmpl.check(call.files)))
    refused = row.status == tmpl.REFUSED and not row.err.startswith(b"tmpl: no template")
    if not refused:
        return f"{row.name}, checked", 1, [f"    it says {lines}"] if lines else []
    place, reason = re.fullmatch(r"tmpl: (.*:\d+): (.*)\n", row.err.decode("utf-8", "replace"), re.DOTALL).groups()
    place = place.replace("\n", "\\n")  # a check writes a newline by its code
    is_right = lines and re.match(rf"{re.escape(place)}:\d+: error: {re.escape(reason)}(: |$)", "\n".join(lines))
    return f"{row.name}, checked", 1, [] if is_right else [f"    it says {lines}"]


def judge_checks():
    """The files of problem_rows.py, whose lines were worked out by hand, and more than one file."""
    for title, text, lines in problem_rows.ROWS + problem_rows.FILES:
        wanted = [f"m:{line}" for line in lines if " error: " in f" {line}"]
        got = list(map(str, tmpl.check({"m": text}, most=2000)))
        yield f"checked: {title}", 1, [] if got == wanted else [f"    got {got}"]
    mistake = 'error: action not understood: no function "name": write .name'
    cases = [
        ("each file is checked", lambda: lines_of([("a", "{{name}}"), ("b", "text"), ("c/d", "\n {{name}}")]), [f"a:1:1: {mistake}", f"c/d:2:2: {mistake}"]),
        ("a file may define what another did", lambda: tmpl.check([("a", '{{define "t"}}{{end}}'), ("b", '{{define "t"}}{{end}}')]), []),
        ("no file", lambda: tmpl.check([]), []),
        ("a name that is no text after a refused file", lambda: tmpl.check([("a", "{{name}}"), (b"\xff", "")]),
         ("TemplateError", "tmpl: the name of a file is not UTF-8", None)),
        ("what an error of a render bears", lambda: problems_of({"a": "{{name}}{{end}}"}),
         [f"a:1:1: {mistake}", f"a:1:9: {problem_rows.OUT_OF_PLACE}{problem_rows.END}"]),
        ("an error of no file", lambda: problems_of({"a": "{{index . 1}}"}), []),
    ]
    for name, call, wanted in cases:
        got = raised(call)
        yield f"checked: {name}", 1, [] if got == wanted else [f"    got {got}"]


def lines_of(files):
    return [str(it) for it in tmpl.check(files)]


def problems_of(files):
    """What the error of a render says of files, also after it went to another process."""
    try:
        tmpl.render(files)
    except tmpl.TemplateError as error:
        return [str(it) for it in pickle.loads(pickle.dumps(error)).problems]
    return None


MISTAKES = b"{{}}" * 300_000


def problems_in(memory):
    """How many problems the error of a file with many of them bears, that was refused under a limit."""
    try:
        tmpl.render({"m": MISTAKES}, memory=memory)
    except tmpl.TemplateError as error:
        return len(error.problems)


def lines_by_c(most):
    """The lines of the call itself for a file with many mistakes, of which it reports so many."""
    held, text = tmpl._pairs({"m": MISTAKES}), tmpl._Text()
    try:
        tmpl._LIBRARY.tmpl_check(tmpl._array(held), len(held), most, text)
        return tmpl._lines(text, 2000)
    finally:
        tmpl._LIBRARY.tmpl_text_free(text)


def judge_problems():
    """The parts of problems, and that they are looked for where somebody reads them, within the limit, and at most 1,000."""
    hostile = "b:1:1: error: out of place: c"
    calls = []
    checked = tmpl.check
    tmpl.check = lambda *words, **how: calls.append(words) or checked(*words, **how)
    try:
        try:
            tmpl.render({"m": "{{"})
        except tmpl.TemplateError as error:
            before, count, after = len(calls), len(error.problems) + len(error.problems), len(calls)
    finally:
        tmpl.check = checked
    cases = [
        ("the parts", tmpl.check({"m": "\n {{name}}"}), [("m", 2, 2, "not-understood", 'action not understood: no function "name": write .name')]),
        ("a path that looks like a place", [it[:4] for it in tmpl.check([("b", ""), (hostile, "{{")])], [(hostile, 1, 1, "unreadable")]),
        ("a path with a newline", [it[:4] for it in tmpl.check({"a\nb": "{{if 1}}"})], [("a\\nb", 1, 9, "open-at-end")]),
        ("not before they are read, and once", (before, count, after), (0, 2, 1)),
        ("at most 1,000", problems_in(0), 1000),
        ("as many as are asked for", len(tmpl.check({"m": MISTAKES}, most=7)), 7),
        ("how many more there are", (len(lines_by_c(7)), lines_by_c(7)[7]), (8, "m:1:1: error: too many errors: at least 299993 more are not reported")),
        ("1,000 where none are asked for", (len(lines_by_c(0)), len(lines_by_c(5000))), (1001, 1001)),
        ("in little memory", raised(lambda: problems_in(1 << 20)), "MemoryError"),
    ]
    for name, got, wanted in cases:
        yield f"problems: {name}", 1, [] if got == wanted else [f"    got {str(got)[:300]}"]
    # each reason has the rule that tmpl-check has for it
    rules = {}
    for _, text, lines in problem_rows.ROWS:
        if lines and " error: " in f" {lines[0]}":
            rules |= {it.text.partition(": ")[0]: it.rule for it in tmpl.check({"m": text})}
    with open(f"{harness.TOP}/crates/tmpl_problems/src/reason.rt", encoding="utf-8") as it:
        kinds = dict(re.findall(r'ParseKind::(\w+) => "(.+)"', it.read()))
    words = {"".join(word.capitalize() for word in rule.split("-")): reason for reason, rule in tmpl.RULES.items()}
    named = {"NotAnAction": "NotUnderstood"}
    of_kinds = {named.get(kind, kind): reason for kind, reason in kinds.items() if kind != "OutOfMemory"}
    of_kinds["TooManyErrors"] = "too many errors"  # which is none of the parser's
    yield "problems: the rules", 1, [] if of_kinds == words else [f"    {of_kinds} {words}"]
    few = len(set(rules)) < 6 or any(tmpl.RULES[reason] != rule for reason, rule in rules.items())
    yield "problems: the rules of rows", len(rules), [f"    {rules}"] if few else []


LARGE = {"m": "{{range 300000}}0123456789{{end}}"}  # 3,000,000 bytes


def judge_memory():
    """A limit of memory refuses a render that needs more, and nothing else; a limit of the text bounds what is gathered."""
    with tmpl.Templates(LARGE) as templates:
        cases = [
            ("with 1 MiB", lambda: templates.render(memory=1 << 20), "MemoryError"),
            ("with 32 MiB", lambda: len(templates.render(memory=32 << 20)), 3000000),
            ("without a limit", lambda: len(templates.render()), 3000000),
            ("with 1 MiB again, in the memory of the text", lambda: len(templates.render(memory=1 << 20)), "MemoryError"),
            ("a large value with 1 MiB", lambda: templates.render(data=["x" * (1 << 20)], memory=1 << 20), "MemoryError"),
            ("few bytes with 1 MiB", lambda: came_of(lambda: templates.render_bytes(output=9, memory=1 << 20)), (6, b"012345678", "tmpl: more than 9 bytes of output")),
            ("parsing with 1 MiB", lambda: tmpl.render({"m": "{{.}}" * 50_000}, memory=1 << 20), "MemoryError"),
            ("parsing of what is kept with 1 MiB", lambda: tmpl.Templates({"m": "{{.}}" * 50_000}, memory=1 << 20), "MemoryError"),
            ("one more file with 1 MiB", lambda: templates.add("n", "{{.}}" * 50_000, memory=1 << 20), "MemoryError"),
            ("reading data with 1 MiB", lambda: tmpl.render({"m": ""}, data=[0] * 100_000, memory=1 << 20), "MemoryError"),
            ("data that is kept with 1 MiB", lambda: tmpl.Data([0] * 100_000, memory=1 << 20), "MemoryError"),
            ("checking with 1 MiB", lambda: tmpl.check({"m": MISTAKES}, memory=1 << 20), "MemoryError"),
            ("all of a render together", lambda: tmpl.render({"m": "{{.}}" * 2_000 + "{{range 9999}}0123456789{{end}}"}, data=0, memory=300_000), "MemoryError"),
            ("half a byte", lambda: templates.render(memory=1.5), ("TypeError", "memory is an int, not float", None)),
            ("half a byte of text", lambda: templates.render(output=1.5), ("TypeError", "output is an int, not float", None)),
            ("no number of bytes", lambda: templates.render(memory=-1), ("ValueError", "memory is from 0 to 2^64 - 1", None)),
            ("no number of bytes of text", lambda: templates.render(output=1 << 64), ("ValueError", "output is from 0 to 2^64 - 1", None)),
        ]
        for name, call, wanted in cases:
            got = raised(call)
            yield f"a limit of memory: {name}", 1, [] if got == wanted else [f"    got {got}"]
    before = resource.getrusage(resource.RUSAGE_SELF).ru_maxrss
    got = came_of(lambda: tmpl.render_bytes({"m": "{{range 400000000}}0123456789{{end}}"}, output=1000))
    grown = resource.getrusage(resource.RUSAGE_SELF).ru_maxrss - before
    wrong = [] if got == (6, b"0123456789" * 100, "tmpl: more than 1000 bytes of output") else [f"    got {got}"]
    yield "a limit of the text bounds what is gathered", 1, wrong + [f"    it grew by {grown} kB"] * (grown > 4096)


def judge_keys(folder):
    """Names are hashed by 16 random bytes of the system, which the library draws itself, once for a thread; where the system has none to
    give, texts are the same."""
    shim = f"{folder}/draw_keys.so"
    harness.build_shim("draw_keys.c", shim)
    program = "import tmpl; f = {'m': '{{$x := 1}}{{template `t` $x}}{{define `t`}}{{.}}{{end}}'}; print(tmpl.render(f), tmpl.render(f), tmpl.check(f))"
    for name, more in (("random bytes", {}), ("no random bytes", {"KEYS_FAIL": "1"})):
        reader, writer = os.pipe()
        environment = {**os.environ, "PYTHONPATH": f"{BINDINGS}/python", "PYTHONHASHSEED": "0", "LD_PRELOAD": shim, "KEYS_FD": str(writer), **more}
        got = ran(sys.executable, "-c", program, env=environment, pass_fds=[writer])
        os.close(writer)
        with open(reader, "rb") as pipe:
            asked = len(pipe.read())
        wrong = [] if got == (0, "1 1 []\n") else [f"    got {got}"]
        yield f"keys of {name}", 1, wrong + [f"    it drew {asked} bytes"] * (asked != 16 if not more else asked % 16 or not asked)


def findings_of(template, schema, words, form):
    """The status and the text of `tmpl_check_schema` over a template t and a schema s, by words of the command, which takes names that begin
    with "stop: " for stops without being asked."""
    given = {"--missingkey": [], "--stop": re.findall(rb'\{\{template "(stop: [^"]*)"', template), "--name": []}
    for option, value in zip(words[::2], words[1::2]):
        given[option].append(value.encode())
    stops, name = given["--stop"], given["--name"][0] if given["--name"] else b""
    mode = 1 + tmpl.MISSING_KEY[given["--missingkey"][0].decode()] if given["--missingkey"] else 0
    array = (tmpl._Name * max(len(stops), 1))(*[tmpl._Name(it, len(it)) for it in stops])
    about = tmpl._File(b"s", 1, schema, len(schema))
    question, text = tmpl._Question(about, name, len(name), array, len(stops), mode, form), tmpl._Text()
    try:
        return tmpl._LIBRARY.tmpl_check_schema(tmpl._array(((b"t", template),)), 1, question, text), text.copied()
    finally:
        tmpl._LIBRARY.tmpl_text_free(text)


def judge_schema(folder, title, schema, template, words):
    """A row of a check over a schema: the library writes what the command writes, in each form."""
    schema, wrong = (schema if isinstance(schema, str) else json.dumps(schema)).encode(), []
    for name, what in (("s", schema), ("t", template.encode())):
        with open(f"{folder}/{name}", "wb") as it:
            it.write(what)
    for form, option in enumerate(("text", "json", "sarif")):
        ended = subprocess.run([harness.CHECKER, "--schema", "s", "--format", option, *words, "t"], cwd=folder, capture_output=True, check=False)
        got = findings_of(template.encode(), schema, words, form)
        wanted = {0: tmpl.OK, 1: tmpl.REFUSED}.get(ended.returncode), ended.stdout
        wrong += [f"    as {option}: {harness.short(str(got))}, wanted {harness.short(str(wanted))}"] * (got != wanted)
    return f"over a schema: {title}", 3, wrong


def judge_schemas(folder):
    """The check over a schema: the rows, and what else a caller may pass."""
    for title, schema, template, words, *_ in schema_rows.ACCEPTED + schema_rows.REFUSED + schema_rows.SHOWN:
        yield judge_schema(folder, title, schema, template, words)
    schema = json.dumps({"type": "object", "additionalProperties": False, "properties": {"a": {"type": "string"}}})
    required = json.dumps({"type": "object", "additionalProperties": False, "properties": {"a": {"type": "string"}}, "required": ["a"]})
    cases = [
        ("it never fails", lambda: tmpl.check_schema({"m": "{{len .a}}"}, required), []),
        ("the template of a name", lambda: tmpl.check_schema({"m": '{{len .b}}{{define "d"}}{{len .a}}{{end}}'}, required, "d"), []),
        ("a template that need not be there", lambda: tmpl.check_schema({"m": '{{template "x"}}'}, required, stops=["x"])[0].level, "warning"),
        ("no files", lambda: [it.level for it in tmpl.check_schema({}, required)], ["error"]),
        ("a name that is no text", lambda: tmpl.check_schema({"m": ""}, required, b"\xff"), (2, b"", "tmpl: a name is not UTF-8")),
        ("a path that is no text", lambda: tmpl.check_schema({b"\xff": ""}, required), (2, b"", "tmpl: a name is not UTF-8")),
        ("a stop that is no text", lambda: tmpl.check_schema({"m": ""}, required, stops=[b"\xff"]), (2, b"", "tmpl: a name is not UTF-8")),
        ("a schema that is no JSON", lambda: [it.rule for it in tmpl.check_schema({"m": ""}, "{")], ["not-json"]),
        ("a mode", lambda: tmpl.check_schema({"m": "{{print .a}}"}, schema, missing_key="default"), []),
        ("each mode", lambda: [(it.file, it.line, it.column, it.level) for it in tmpl.check_schema({"m": "{{print .a}}"}, schema)], [("m", 1, 1, "error")]),
    ]
    for name, call, wanted in cases:
        got = found_of(call)
        yield f"over a schema: {name}", 1, [] if got == wanted else [f"    got {got}"]
    yield "over a schema: little memory", 1, [] if raised(lambda: tmpl.check_schema({"m": "{{len .a}}" * 1000}, required, memory=10_000)) == "MemoryError" else ["    it is checked"]


def found_of(call):
    """What a call gives, or the status, text and line of its error."""
    try:
        return call()
    except tmpl.TemplateError as error:
        return error.status, error.text, error.line


def judge_refusals():
    """What is refused leaves what was kept as it was, and what is freed is empty."""
    templates = tmpl.Templates({"a": "one {{.}}"})
    nothing = (0, b"one <no value>", "")
    cases = [
        ("a file is refused", lambda: templates.add("b", '{{define "a"}}two{{end}}{{'), (4, b"", "tmpl: b:1: unclosed or unreadable action")),
        ("the set is as it was", lambda: templates.render_bytes(data=b"1"), (0, b"one 1", "")),
        ("data is refused", lambda: templates.render_bytes(data=b"[1.5]"), (5, b"", "tmpl: data: number not whole or out of range")),
        ("the data is as it was", lambda: came_with(templates, "a"), (0, b"one 1", "")),
        ("a name of a file is no text", lambda: templates.add(b"\xff", ""), (2, b"", "tmpl: arguments refused; see tmpl --help")),
        ("a file after it", lambda: templates.add("c", '{{define "a"}}three {{.}}{{end}}'), (0, b"", "")),
        ("it replaces the first", lambda: templates.render_bytes(data=b"1"), (0, b"three 1", "")),
        ("freed", templates.close, (0, b"", "")),
        ("freed twice", templates.close, (0, b"", "")),
        ("the set is empty", lambda: templates.render_bytes(), (4, b"", 'tmpl: no template "a"')),
        ("the printed set is empty", lambda: templates.render_bytes(printed=True), (0, b"", "")),
        ("it may be filled again", lambda: templates.add("a", "one {{.}}"), (0, b"", "")),
        ("there is no data", lambda: templates.render_bytes(), nothing),
    ]
    for name, call, wanted in cases:
        got = came_of(call)
        yield f"kept: {name}", 1, [] if got == wanted else [f"    got {got}"]


def came_with(templates, name):
    """A render with the data that is there, as no wrapper makes one."""
    worker = templates._idle[-1]
    words = (tmpl._Settings(), worker.program, worker.data, name.encode(), len(name), worker.text, worker.line)
    return worker.text.copied() if tmpl._LIBRARY.tmpl_render_text(*words) == 0 else worker.line.copied()


def guarded(size):
    """Memory of this many bytes, with a guard after it."""
    lent = tmpl._Lent(size)
    lent.memory = tmpl.ctypes.create_string_buffer(b"\xa5" * size + GUARD, size + len(GUARD))
    lent.buffer.bytes = tmpl.ctypes.addressof(lent.memory)
    return lent


def is_shown(lent, size, text):
    """Whether memory of this many bytes holds as much of the text as it has room for, and the guard stands."""
    taken = min(size, len(text))
    whole = text[:taken] + b"\xa5" * (size - taken) + GUARD
    return lent.memory.raw == whole and (lent.buffer.taken, lent.buffer.needed) == (taken, len(text))


def judge_sizes(call):
    """Calls with each size of room for the text, and then for the line: how many, and what is wrong of them."""
    text, line, count, wrong = call.row.out, call.line, 0, []
    sizes = [(size, 64) for size in range(len(text) + 2)] + [(len(text), size) for size in range(len(line) + 2)]
    held, lent = tmpl._Lent, None
    for size, line_size in sizes:
        memory = iter([guarded(size), guarded(line_size)])
        tmpl._Lent = lambda _: next(memory)
        try:
            status, out, err = call.into(size, line_size)
        finally:
            tmpl._Lent = held
        fits = len(text) <= size
        said = line if fits else b"tmpl: write failed\n"
        wanted = call.row.status if fits else tmpl.FULL
        if status != wanted or not is_shown(out, size, text) or not is_shown(err, line_size, said):
            wrong.append(f"    room for {size} and {line_size}: {status} {out.memory.raw!r} {err.memory.raw!r}")
        count += 1
    return f"{call.row.name}, each size", count, wrong


THREADS = 8
RENDERS = 12_500  # of each thread


def render_often(templates, number):
    """How many renders of a thread gave another text than that of its own data."""
    return sum(templates.render(data={"n": number, "k": turn}) != f"{number} {turn}" for turn in range(RENDERS))


def resident():
    """The kilobytes that the process has."""
    with open("/proc/self/statm", encoding="ascii") as it:
        return int(it.read().split()[1]) * 4


def grown_by(count):
    """The kilobytes by which the process grows by this many large texts, while the cyclic collector is off."""
    gc.disable()
    try:
        before = resource.getrusage(resource.RUSAGE_SELF).ru_maxrss
        for _ in range(count):
            tmpl.render_bytes({"m": "{{range 300000}}0123456789{{end}}"})
        return resource.getrusage(resource.RUSAGE_SELF).ru_maxrss - before
    finally:
        gc.enable()


def raised(call):
    """The error of a call: its kind, what it says, and where the data has a number that is refused."""
    try:
        return call()
    except (tmpl.TemplateError, TypeError, ValueError) as error:
        return type(error).__name__, str(error), getattr(error, "where", None)
    except MemoryError as error:
        return type(error).__name__


REFUSED_NUMBER = "tmpl: data: number not whole or out of range"


def judge_options():
    """What the wrapper for Python makes of values with a fraction, of options that are none, of several data, and of a `with`."""
    prices = {"names": ["a"], "prices": [1, {"net": 9.9, "gross": Decimal("11.80")}]}
    text = {"m": "{{range .prices}}{{.}} {{end}}"}
    with tmpl.Templates({"m": "{{.n}}"}) as templates:
        many = list(templates.render_many("m", [{"n": 1}, {"n": "b"}, {"n": 2.5}], floats="text"))
        half = templates.render_many("m", [{"n": 1}, {"n": 2.5}])
        cases = [
            ("several data", many, ["1", "b", "2.5"]),
            ("the first of two data", next(half), "1"),
            ("the second, which is refused", raised(lambda: next(half)), ("TemplateError", f"{REFUSED_NUMBER} (.n)", ".n")),
            ("the data before is as it was", templates.render("m", {"n": 1}), "1"),
        ]
    of_options = [
        ("a closed set", lambda: templates.render("m"), ("TemplateError", 'tmpl: no template "m"', None)),
        ("floats as texts", lambda: tmpl.render(text, "m", prices, floats="text"), "1 map[gross:11.80 net:9.9] "),
        ("a float", lambda: tmpl.render(text, "m", {"prices": [1, {"net": 9.9}]}), ("TemplateError", f"{REFUSED_NUMBER} (.prices.1.net)", ".prices.1.net")),
        ("a large number beside a float", lambda: tmpl.render(text, "m", [1.5, 1 << 63], floats="text"), ("TemplateError", f"{REFUSED_NUMBER} (.1)", ".1")),
        ("a float alone", lambda: tmpl.render(text, "m", 0.5), ("TemplateError", f"{REFUSED_NUMBER} (.)", ".")),
        ("a number of bytes", lambda: tmpl.render(text, "m", b"[1.5]"), ("TemplateError", REFUSED_NUMBER, None)),
        ("a mode that is none", lambda: tmpl.render(text, missing_key="empty"), ("ValueError", "missing_key is one of 'default', 'invalid', 'zero', 'error', not 'empty'", None)),
        ("floats as nothing", lambda: tmpl.render(text, floats="whole"), ("ValueError", "floats is 'refuse' or 'text', not 'whole'", None)),
    ]
    limits = "depth is from 0 to 2^32 - 1, and steps from 0 to 2^64 - 1"
    for name, value in (("depth", 1 << 32), ("depth", -1), ("steps", 1 << 64), ("steps", -1)):
        of_options.append((f"{name} {value}", lambda it={name: value}: tmpl.render(text, **it), ("ValueError", limits, None)))
    for name, got, wanted in [*cases, *((name, raised(call), wanted) for name, call, wanted in of_options)]:
        yield f"the wrapper: {name}", 1, [] if got == wanted else [f"    got {got}"]


def subclassed():
    """Templates of a class of one's own, whose __init__ calls none: it is empty, and can be filled and freed."""
    own = type("Own", (tmpl.Templates,), {"__init__": lambda self, more: None})(5)
    own.add("m", "{{.}}")
    return own.render(data=7)


def shared_data():
    """Data that many threads render at the same time, that is copied, and that goes before its renders."""
    data = tmpl.Data({"n": list(range(1000))})
    with tmpl.Templates({"m": "{{len .n}} {{index .n 7}}"}) as templates, ThreadPoolExecutor(THREADS) as pool:
        texts = set(pool.map(lambda _: templates.render(data=copy.deepcopy(copy.copy(data))), range(2000)))
        del data
        return texts, templates.render(data={"n": [0] * 8})


def seconds_of(call, times):
    before = time.process_time()
    for _ in range(times):
        call()
    return (time.process_time() - before) / times


def judge_objects():
    """Copies, classes of one's own, values that are no text, and data that is kept."""
    templates = tmpl.Templates({"m": "{{len .}}"})
    large = ["x" * 30] * 20_000
    kept = tmpl.Data(large)
    dear, cheap = seconds_of(lambda: templates.render(data=large), 3), seconds_of(lambda: templates.render(data=kept), 30)
    no_copy = "Templates are not copied: any number of threads use one object, and another process makes its own"
    cases = [
        ("copy", lambda: copy.copy(templates), ("TypeError", no_copy, None)),
        ("deepcopy", lambda: copy.deepcopy([templates]), ("TypeError", no_copy, None)),
        ("pickle", lambda: pickle.dumps(templates), ("TypeError", no_copy, None)),
        ("what was not copied", lambda: templates.render(data=[1]), "1"),
        ("a class of one's own", subclassed, "7"),
        ("a number as a file", lambda: tmpl.render({"a": 5}), ("TypeError", "a file is a str or bytes, not int", None)),
        ("a number as a file that is checked", lambda: tmpl.check({"a": 5}), ("TypeError", "a file is a str or bytes, not int", None)),
        ("a number as a path", lambda: tmpl.render([(5, "")]), ("TypeError", "a path is a str or bytes, not int", None)),
        ("a number as a name", lambda: templates.render(5), ("TypeError", "a name is a str or bytes, not int", None)),
        ("an option that is not there", lambda: isinstance(raised(lambda: tmpl.render({"a": ""}, memroy=5)), tuple), True),
        ("half a step", lambda: raised(lambda: tmpl.render({"a": ""}, steps=1.5))[0], "TypeError"),
        ("data that is kept", lambda: templates.render(data=tmpl.Data([1, 2])), "2"),
        ("data of a render of files", lambda: tmpl.render({"m": "{{.}}"}, data=tmpl.Data(b"7")), "7"),
        ("floats of data that is kept", lambda: templates.render(data=tmpl.Data([0.5], floats="text")), "1"),
        ("a float of data that is kept", lambda: tmpl.Data([0.5]), ("TemplateError", f"{REFUSED_NUMBER} (.0)", ".0")),
        ("data of threads", shared_data, ({"1000 7"}, "8 0")),
        ("data is pickled", lambda: raised(lambda: pickle.dumps(kept))[0], "TypeError"),
        ("data that is kept is not read again", lambda: cheap * 20 < dear, True),
    ]
    for name, call, wanted in cases:
        got = raised(call)
        yield f"the wrapper: {name}", 1, [] if got == wanted else [f"    got {got}"]
    print(f"data of 20,000 strings: {1000 * dear:.2f} ms a render as a list, {1000 * cheap:.3f} ms as Data")


# files, data, and the file, the line and the template that an error names
PLACES = [
    ({"m": "\n{{"}, None, ("m", 2, None)),
    ({"d:1: in x/m": "\n\n{{nope}}"}, None, ("d:1: in x/m", 3, None)),
    ({"d:7: in \"q\": /m": '{{define "a\\"\\n\\x80\u00fc"}}\n{{nil}}{{end}}{{template "a\\"\\n\\x80\u00fc"}}'}, None,
     ('d:7: in "q": /m', 2, 'a"\n\ufffd\u00fc')),
    ({"m": "{{range 1}}\n{{len .}}{{end}}"}, None, ("m", 2, "m")),
    ({"x": "no such name"}, None, (None, None, None)),
    ({"m": "{{.}}"}, 1.5, (None, None, None)),
]


def judge_wrapper():
    """What the wrapper for Python owes besides texts: threads that share templates, errors that pass between processes, and memory
    that is given back as soon as a text is."""
    templates = tmpl.Templates({"m": "{{.n}} {{.k}}"})
    with ThreadPoolExecutor(THREADS) as pool:
        wrong = sum(pool.map(lambda number: render_often(templates, number), range(THREADS)))
    yield "8 threads over one set", THREADS * RENDERS, [f"    {wrong} renders were wrong"] if wrong else []
    try:
        templates.render("none")
        yield "an error that is pickled", 1, ["    there was none"]
    except tmpl.TemplateError as error:
        again = pickle.loads(pickle.dumps(error))
        same = (again.status, again.line, again.text, str(again)) == (4, 'tmpl: no template "none"', b"", 'tmpl: no template "none"')
        yield "an error that is pickled", 1, [] if same else [f"    {again!r}"]
    for files, data, wanted in PLACES:
        try:
            tmpl.render(files, "m", data)
            came = None
        except tmpl.TemplateError as error:
            came = pickle.loads(pickle.dumps(error))
            came = came.file, came.line_number, came.template
        yield f"the place of an error: {wanted}", 1, [] if came == wanted else [f"    {came}"]
    grown_by(2)
    more = grown_by(20)
    yield "the memory of large texts", 1, [f"    it grew by {more} kB"] if more > 4096 else []
    render_often(templates, 0)
    before = resident()
    for number in range(THREADS):
        render_often(templates, number)
    more = resident() - before
    yield "the memory of 100,000 renders", 1, [f"    it grew by {more} kB"] if more > 1024 else []


def judge_names():
    """Names that are no UTF-8: of a file, and of a template."""
    settings = tmpl._Settings()
    refused = (2, b"", b"tmpl: arguments refused; see tmpl --help\n")
    cases = [
        ("the name of a file is not UTF-8", [(b"\xff", b"text")], b"\xff", refused),
        ("the name of the second file is not UTF-8", [(b"m", b"text"), (b"m\xc3", b"text")], b"m", refused),
        ("a file is refused before the name of the next one", [(b"m", b"{{"), (b"\xff", b"")], b"m", (4, b"", b"tmpl: m:1: unclosed or unreadable action\n")),
        ("a template's name need not be UTF-8", [(b"m", b'{{define "\xff"}}text{{end}}')], b"\xff", (4, b"", b'tmpl: no template "\\xff"\n')),
        ("no file", [], b"m", (4, b"", b'tmpl: no template "m"\n')),
    ]
    for name, files, template, wanted in cases:
        status, out, err = tmpl.render_into(files, template, b"", settings, 64, 64)
        got = (status, out.output(), err.output())
        yield name, 1, [] if got == wanted else [f"    got {got}"]


# ---- C and C++


def compiled(folder, name, compiler, *words):
    """The path of a program, and what is wrong where it can't be compiled."""
    path = f"{folder}/{name}"
    status, said = ran(*compiler, *words, "-o", path)
    return path, [f"    {said}"] if status else []


def judge_c(folder):
    """tests/check/library.c over libtmpl.a, and under valgrind."""
    wraps = [f"-Wl,--wrap={it}" for it in ("malloc", "realloc", "free")]
    program, wrong = compiled(
        folder, "library", ["cc", "-std=gnu11", "-O1", "-g", *WARNINGS], f"-I{BINDINGS}/c", f"{harness.TESTS}/check/library.c", f"{OUT}/libtmpl.a", "-pthread", *wraps
    )
    if wrong:
        yield "tests/check/library.c", 1, wrong
        return
    status, said = ran(program)
    print(said.rstrip())
    counts = re.search(r"^(\d+) cases, 0 failed$", said, re.MULTILINE)
    few = not counts or int(counts[1]) < LEAST_CASES
    yield "tests/check/library.c", int(counts[1]) if counts else 1, [f"    {said}"] if status or few else []
    if not tools.lack("valgrind", "tests/check/library.c under it"):
        status, said = ran("valgrind", "-q", "--error-exitcode=9", "--leak-check=full", program, "few")
        yield "tests/check/library.c under valgrind", 1, [f"    {said}"] if status else []


MISTAKES_IN_CPP = 'n:1:1: error: action not understood: no function "name": write .name|'

CALLS_IN_CPP = [
    "with data: 11 Hello, Ada!",
    "without: 18 Hello, <no value>!",
    'a missing key: 1 "tmpl: m:1: in "m": no entry for key "name"" after "Hello, "',
    f"a long text: {1 + 30000 * 10 + 1} a{('0123456789' * 4)[:39]}",
    'few steps: 1 "tmpl: m:1: in "m": more than 1 steps" after "Hello, "',
    'no template: 4 "tmpl: no template """ after ""',
    f'a long name: 4 "tmpl: no template "{"x" * 5000}"" after ""',
    'refused: 4 "tmpl: n:1: unclosed or unreadable action" after ""',
    f'problems: {len(MISTAKES_IN_CPP)} {MISTAKES_IN_CPP[:40]}',
    "no problems: 1 0",
    'a short text: 6 "tmpl: more than 9 bytes of output" after "Hello, Ad"',
    f"a check over a schema: 41 {('1||0|' + 'm:1:1: error: may fail: .b may be absent')[:40]}",
    "the parts of a problem: 46 b:1:1: error: out of place: c|2|10|open-",
    "the place of an error: 5 n|2|2",
    "many problems: 6 1000 7",
    "data that is constant: 18 Hello, a constant!",
    "little memory: no memory",
    "a large text is given back: 5 it is",
    'no name of a file: 2 "tmpl: arguments refused; see tmpl --help" after ""',
    'no JSON: 5 "tmpl: data: number not whole or out of range" after ""',
    "moved: 9 Ada again",
    "shared: 9 Ada again",
    "threads: 7 0 wrong",
    "memory: 4 flat",
    "after one more file: 13 Ada once more",
    'printed: 37 {{define "n"}}{{.name}} again{{end}}',
]


STACK = 512  # kilobytes, as docs/EMBEDDING.md and tmpl.h say
LEAST_STACKS = 99  # calls with the deepest inputs


def judge_stack(folder):
    """Each call with the deepest inputs, in threads of the stack that callers are told to have."""
    program, wrong = compiled(folder, "stack", ["cc", "-std=gnu11", "-O1", *WARNINGS], f"-I{BINDINGS}/c", f"{harness.TESTS}/check/stack.c", f"{OUT}/libtmpl.a", "-pthread")
    if wrong:
        yield "tests/check/stack.c", 1, wrong
        return
    status, said = ran(program, str(STACK))
    told = re.findall(r"^(.+): (\d+), (\d+) kB$", said, re.MULTILINE)
    most = max(((int(used), what) for what, _, used in told), default=(0, ""))
    print(f"the stack of {most[1]}: {most[0]} kB of {STACK}")
    is_right = status == 0 and len(told) >= LEAST_STACKS and len(told) == len(said.splitlines())
    yield "tests/check/stack.c", len(told), [] if is_right else [f"    {status}: {said[-500:]}"]
    with open(f"{BINDINGS}/c/tmpl.h", encoding="utf-8") as it:
        yield "the stack that the header tells", 1, [] if f"{STACK} kB of stack" in it.read() else ["    it tells another"]


def judge_cpp(folder):
    """The header for C++: tests/check/library.cc over libtmpl.a, and under valgrind."""
    words = [f"-I{BINDINGS}/c", f"{harness.TESTS}/check/library.cc", f"{OUT}/libtmpl.a"]
    program, wrong = compiled(folder, "library-cpp", ["c++", "-std=c++17", "-g", "-pthread", *WARNINGS], *words)
    status, said = (1, "") if wrong else ran(program)
    lines = said.split("\n")
    wrong += [f"    got {got[:200]}" for got, wanted in zip(lines, CALLS_IN_CPP) if got != wanted]
    yield "tests/check/library.cc", len(CALLS_IN_CPP), wrong + [f"    {status}: {len(lines)} lines"] * ((status, len(lines)) != (0, len(CALLS_IN_CPP) + 2))
    if not wrong and not tools.lack("valgrind", "tests/check/library.cc under it"):
        status, said = ran("valgrind", "-q", "--error-exitcode=9", "--leak-check=full", program, "few")
        yield "tests/check/library.cc under valgrind", 1, [f"    {said}"] if status else []


HEADER = r"""
#include "tmpl.h"
#include <stdio.h>
int main(void) {
    char text[16], line[64];
    tmpl_settings settings = TMPL_SETTINGS;
    tmpl_file file = {"m", 1, "{{.}}", 5};
    tmpl_buffer out = {text, sizeof text, 0, 0}, err = {line, sizeof line, 0, 0};
    int status = tmpl_render(&settings, &file, 1, "m", 1, "[1,2]", 5, &out, &err);
    printf("%d %.*s\n", status, (int)out.taken, out.bytes);
    return 0;
}
"""


def judge_header(folder):
    """The header in C and C++, over the shared library and over the static one, and as it is installed."""
    root = f"{folder}/a root"
    status, said = ran("make", "-s", "-C", harness.TOP, "install-lib", f"DESTDIR={root}", "PREFIX=/usr")
    yield "make install-lib", 1, [f"    {said}"] if status else []
    for name, text in (("header.c", HEADER), ("header.cc", HEADER)):
        with open(f"{folder}/{name}", "w", encoding="utf-8") as it:
            it.write(text)
    libraries = {"static": [f"{OUT}/libtmpl.a"], "shared": [f"-L{OUT}", "-ltmpl", f"-Wl,-rpath,{OUT}"]}
    installed = [f"-I{root}/usr/include", f"-L{root}/usr/lib", "-ltmpl", f"-Wl,-rpath,{root}/usr/lib"]
    ways = [(kind, [f"-I{BINDINGS}/c"], words) for kind, words in libraries.items()] + [("installed", [], installed)]
    for language, compiler, file in (("C", ["cc", "-std=c99"], "header.c"), ("C++", ["c++", "-std=c++11"], "header.cc")):
        for kind, flags, words in ways:
            program, wrong = compiled(folder, f"{language}-{kind}", [*compiler, *WARNINGS], *flags, f"{folder}/{file}", *words)
            got = (1, "") if wrong else ran(program)
            yield f"the header in {language}, {kind}", 1, wrong or ([] if got == (0, "0 [1 2]\n") else [f"    got {got}"])
    if not tools.lack("pkg-config", "tmpl.pc"):
        environment = {**os.environ, "PKG_CONFIG_PATH": f"{root}/usr/lib/pkgconfig"}
        got = ran("pkg-config", "--cflags", "--libs", "--define-variable=prefix=/opt/x", "tmpl", env=environment)
        modern = ran("pkg-config", "--modversion", "tmpl", env=environment)
        yield "the version by pkg-config", 1, [] if modern == (0, f"{tmpl.__version__}\n") else [f"    got {modern}"]
        yield "pkg-config", 1, [] if got == (0, "-I/opt/x/include -L/opt/x/lib -ltmpl \n") or got == (0, "-I/opt/x/include -L/opt/x/lib -ltmpl\n") else [f"    got {got}"]
    status, said = ran("make", "-s", "-C", harness.TOP, "uninstall", f"DESTDIR={root}", "PREFIX=/usr")
    left = [name for _, folders, names in os.walk(root) for name in folders + names]
    yield "make uninstall", 1, [f"    {said} {left}"] if status or left != ["usr"] else []


RECORDED = re.compile(r"(.+),sha256=(.+),(\d+)")


def judge_wheel(folder):
    """The wheel of the binding for Python: that it holds what its list says, and that a program runs by it."""
    status, path = ran(sys.executable, f"{harness.TOP}/packaging/make.py", "wheel")
    if status:
        return "the wheel", 1, [f"    {path}"]
    home, wrong = f"{folder}/wheel", []
    with zipfile.ZipFile(path.strip()) as held:
        held.extractall(home)
        names = held.namelist()
        lines = held.read(next(it for it in names if it.endswith("/RECORD"))).decode().splitlines()
        for name, total, size in (it.groups() for it in map(RECORDED.fullmatch, lines) if it):
            what = held.read(name)
            is_right = total == base64.urlsafe_b64encode(hashlib.sha256(what).digest()).rstrip(b"=").decode() and int(size) == len(what)
            wrong += [] if is_right else [f"    its list is wrong of {name}"]
    if sorted(names) != sorted(it.rsplit(",", 2)[0] for it in lines):
        wrong.append(f"    its list names {lines}, and it holds {names}")
    program = 'import tmpl; print(tmpl.__file__, tmpl.render({"m": "{{.}}"}, "m", [1, 2]))'
    environment = {key: value for key, value in os.environ.items() if key != "LIBTMPL"}
    got = ran(sys.executable, "-c", program, env={**environment, "PYTHONPATH": home}, cwd=folder)
    return "the wheel", 1, wrong + ([] if got == (0, f"{home}/tmpl/__init__.py [1 2]\n") else [f"    got {got}"])


def judge_names_of(path):
    """That the library shows no names but its own."""
    status, said = ran("nm", "-D", "--defined-only", path) if path.endswith(".so") else ran("nm", "-g", "--defined-only", path)
    names = [line.split()[-1] for line in said.splitlines() if len(line.split()) == 3]
    return f"the names of {os.path.basename(path)}", 1, [] if sorted(names) == NAMES and not status else [f"    {names}"]


def judge_marks():
    """That all names are found as it is loaded, and that loaders can refuse older processors than those it is compiled for."""
    status, said = ran("readelf", "-dnW", f"{OUT}/libtmpl.so")
    missing = [it for it in ("BIND_NOW", "x86 ISA needed: x86-64-v2") if it not in said]
    return "what loaders read of it", 1, [f"    {status}: it lacks {missing}"] if status or missing else []


def judge_version():
    """That the library says which build it is, with the logic of this toolchain."""
    logic = re.search(r"logic ([0-9a-f]+)", ran("rt", "version")[1])[1]
    how = "for tests alone, beside" if OUT == FOR_TESTS else "proved by"
    wanted = rf"tmpl \d+\.\d+\.\d+(~git\d+\.[0-9a-f]{{12}}(\+changed)?| of (commit [0-9a-f]{{12}}|no commit)) {how} the logic {logic} of \S.*"
    said = tmpl.version()
    return "which build it is", 1, [] if re.fullmatch(wanted, said) else [f"    it says {said}"]


# ---- documents and bindings


def programs():
    """The programs of docs/EMBEDDING.md and README.md: language, text, and what they put out."""
    found = []
    for page in ("docs/EMBEDDING.md", "README.md"):
        with open(f"{harness.TOP}/{page}", encoding="utf-8") as it:
            found += BLOCK.findall(it.read())
    return found


def judge_program(folder, language, text, wanted):
    """A program of the document, compiled and run."""
    home = tempfile.mkdtemp(prefix=f"{language}-", dir=folder)
    run = {"c": run_c, "cpp": run_cpp, "python": run_python, "go": run_go, "rust": run_rust}[language]
    got = run(home, text)
    lines = sum(bool(line.strip()) for line in text.splitlines())
    wrong = [] if got == (0, wanted) else [f"    got {got}"]
    return f"a program that the documents show: {language}", 1, wrong + [f"    {lines} lines"] * (lines > 15)


# letters by Dask: how many, and what each is, by the rules
LETTERS = 12000


def letter(number):
    balance = number * 7919 % 2000 - 1000
    said = f"you owe us {-balance}" if balance < 0 else f"you have {balance}"
    return f"Dear Customer {number},\n{said} euros.\n".encode()


def with_dask():
    """A Python that has Dask's scheduler; none where there is none."""
    for python in (sys.executable, "/usr/bin/python3"):
        found = os.path.exists(python) and subprocess.run([python, "-c", "import distributed"], stderr=subprocess.DEVNULL, check=False)
        if found and found.returncode == 0:
            return python
    return None


def letters_by_dask(folder):
    """Runs examples/letters.py, also with a worker that is killed: every letter must be there, once, and be that of the rules."""
    python = with_dask()
    if tools.lack("distributed", "examples/letters.py", bool(python)):
        return
    wanted = b"".join(letter(it) for it in range(LETTERS))
    environment = {**os.environ, "LIBTMPL": f"{OUT}/libtmpl.so", "PYTHONPATH": f"{BINDINGS}/python"}
    for options in ([], ["--kill"]):
        home = tempfile.mkdtemp(prefix="letters-", dir=folder)
        words = [python, f"{harness.TOP}/examples/letters.py", str(LETTERS), home, *options]
        how = {"env": environment, "cwd": folder, "stdout": subprocess.PIPE, "stderr": subprocess.DEVNULL, "timeout": 120}
        done = subprocess.run(words, check=False, **how)
        text = b""
        for name in sorted(it for it in os.listdir(home) if it.endswith(".txt")):
            with open(f"{home}/{name}", "rb") as it:
                text += it.read()
        wrong = [] if done.returncode == 0 and text == wanted else [f"    status {done.returncode}, {len(text)} bytes of {len(wanted)}"]
        wrong += [] if done.stdout.startswith(b"%d letters, " % LETTERS) else [f"    it says {done.stdout}"]
        yield f"letters by Dask {' '.join(options)}".strip(), 1, wrong


def written(path, text):
    os.makedirs(os.path.dirname(path), exist_ok=True)
    with open(path, "w", encoding="utf-8") as it:
        it.write(text)


def run_c(home, text):
    written(f"{home}/hello.c", text)
    words = [f"-I{BINDINGS}/c", f"{home}/hello.c", f"-L{OUT}", "-ltmpl", f"-Wl,-rpath,{OUT}"]
    program, wrong = compiled(home, "hello", ["cc", *WARNINGS], *words)
    return (1, wrong) if wrong else ran(program)


def run_cpp(home, text):
    written(f"{home}/hello.cc", text)
    words = [f"-I{BINDINGS}/c", f"{home}/hello.cc", f"-L{OUT}", "-ltmpl", f"-Wl,-rpath,{OUT}"]
    program, wrong = compiled(home, "hello", ["c++", "-std=c++17", *WARNINGS], *words)
    return (1, wrong) if wrong else ran(program)


def run_python(home, text):
    written(f"{home}/hello.py", text)
    environment = {**os.environ, "PYTHONPATH": f"{BINDINGS}/python", "LIBTMPL": f"{OUT}/libtmpl.so"}
    return ran(sys.executable, f"{home}/hello.py", env=environment)


def linking():
    """What has Go and Rust link the library that is tested, which need not be in bindings/out."""
    return {**os.environ, "LIBTMPL_DIR": OUT, "CGO_CFLAGS": f"-I{BINDINGS}/c", "CGO_LDFLAGS": f"-L{OUT} -Wl,-rpath,{OUT}"}


def run_go(home, text):
    written(f"{home}/main.go", text)
    written(f"{home}/go.mod", f"module hello\n\ngo 1.17\n\nrequire tmpl v0.0.0\n\nreplace tmpl => {BINDINGS}/go\n")
    return ran("go", "run", ".", cwd=home, env={**linking(), "GOFLAGS": "-mod=mod"})


def run_rust(home, text):
    written(f"{home}/src/main.rs", text)
    written(f"{home}/Cargo.toml", f'[package]\nname = "hello"\nversion = "0.0.0"\nedition = "2021"\n\n[dependencies]\ntmpl = {{ path = "{BINDINGS}/rust" }}\n')
    return ran("cargo", "run", "--quiet", "--offline", cwd=home, env=linking())


TOOLS = {"go": ("go", ["go", "test", "-race", "./..."]), "rust": ("cargo", ["cargo", "test", "--quiet", "--offline"])}


def judge_bindings(folder):
    """The tests and the programs of the bindings whose tools are installed."""
    for language, (tool, words) in TOOLS.items():
        if tools.lack(tool, f"the binding for {language}"):
            continue
        home = f"{folder}/binding-{language}"
        shutil.copytree(f"{BINDINGS}/{language}", home, ignore=shutil.ignore_patterns("target"))
        status, said = ran(*words, cwd=home, env={**linking(), "CARGO_TARGET_DIR": f"{folder}/target"})
        yield f"the tests of the binding for {language}", 1, [f"    {said}"] if status else []
        for it in programs():
            if it[0] == language:
                yield judge_program(folder, *it)


def main(words):
    global tmpl
    if not choose():
        return harness.closing(0, 1)
    with tempfile.TemporaryDirectory() as folder:
        if words == ["--bindings"]:
            passed, failed, _ = harness.tally(list(judge_bindings(folder)))
            return harness.closing(passed, failed)
        os.environ["LIBTMPL"] = f"{OUT}/libtmpl.so"
        sys.path.insert(0, f"{BINDINGS}/python")
        import tmpl

        calls = [call for call in map(call_of, harness.read_rows()) if call]
        passed, failed, runs = harness.tally(map(judge, calls))
        failed += harness.too_few("rows went through the library", runs, LEAST)
        told = harness.tally(map(judge_kept, calls))
        failed += told[1] + harness.too_few("rows went through what is kept", told[2], LEAST)
        passed += told[0]
        small = [call for call in calls if len(call.row.out) <= SIZES and len(call.line) <= 2 * SIZES]
        told = harness.tally(map(judge_sizes, small))
        failed += told[1] + harness.too_few("calls with room of some size", told[2], LEAST_SIZES)
        passed += told[0]
        told = harness.tally(map(judge_check, calls))
        failed += told[1] + harness.too_few("rows were checked", told[2], LEAST)
        passed += told[0]
        told = harness.tally(map(judge_limits, [call for call in small if call.row.status in (tmpl.OK, tmpl.FAULT)]))
        failed += told[1] + harness.too_few("renders with a limit of the text", told[2], LEAST_LIMITS)
        passed += told[0]
        results = [*judge_checks(), *judge_problems(), *judge_objects(), *judge_memory(), *judge_keys(folder), *judge_schemas(folder), *judge_names(), *judge_refusals(), *judge_wrapper(), *judge_options(), *judge_c(folder), *judge_stack(folder), *judge_cpp(folder), *judge_header(folder)]
        results += [judge_names_of(f"{OUT}/libtmpl.so"), judge_names_of(f"{OUT}/libtmpl.a"), judge_version(), judge_marks()]
        results += [judge_wheel(folder)]
        results += [judge_program(folder, *it) for it in programs() if it[0] in ("c", "cpp", "python")]
        results += letters_by_dask(folder)
        told = harness.tally(results)
        return harness.closing(passed + told[0], failed + told[1])


if __name__ == "__main__":
    sys.exit(main(sys.argv[1:]))
