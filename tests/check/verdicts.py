"""Has tmpl-check check templates against schemas, compares the verdicts with those worked out by hand, and renders what it accepts. First
come templates over one schema, by each mode for missing keys: the proof says that an accepted template never fails, and a check that
refuses all would keep it. Then each accepted template is rendered over data of the schema, by each mode, and must end well, or at the call
of `stop`; and each that is refused over data of the schema for which it fails.

Then it is held to rows over a JSON Schema each, and to random ones: a template that it accepts is rendered over values that conform, and
none may fail; over each value that it shows tmpl must fail, at that line and as it is told, and the value must conform. Where it tells a
line of the schema and that is mended, it must say the same no more. Schemas that it infers are held to rows and to random samples, which
must conform. `verdicts.py SEED COUNT` draws others. Where the Python package jsonschema is installed, what conforms is held to it."""
import itertools
import json
import os
import random
import re
import resource
import subprocess
import sys
import tempfile

from tests.lib import conforming, harness, tools
from tests.rows import schema_rows

try:
    import jsonschema
except ImportError:
    jsonschema = None

# of a processor, of a check that fails: it takes a tenth of that
MOST_SECONDS = 6
MODES = ("default", "invalid", "zero", "error")
LEAF = {"name": "leaf", "items": []}
TREE = {"name": "root", "items": [LEAF, {"name": "", "items": [LEAF]}]}
NAME = {"name": {"type": "string"}}
NAMED = {"type": "object", "required": ["name"], "properties": NAME, "additionalProperties": False}
# `n` is a number, `items` maps with a name, `tree` a map with a name and items that are such maps, and `user`, which may be left out, a map
# with a name
SCHEMA = {
    "type": "object",
    "required": ["n", "items", "tree"],
    "additionalProperties": False,
    "properties": {
        "n": {"type": "integer"},
        "items": {"type": "array", "items": NAMED},
        "tree": {"$ref": "#/$defs/tree"},
        "user": NAMED,
    },
    "$defs": {
        "tree": {
            "type": "object",
            "required": ["name", "items"],
            "additionalProperties": False,
            "properties": {**NAME, "items": {"type": "array", "items": {"$ref": "#/$defs/tree"}}},
        }
    },
}
# data of the schema
DATA = [
    {"n": n, "items": items, "tree": tree, **user}
    for n, items, tree, user in itertools.product(
        (0, 7), ([], [{"name": "a"}, {"name": ""}]), (LEAF, TREE), ({}, {"user": {"name": "Ada"}})
    )
]
NOTE = re.compile(r"(t:[0-9]+:[0-9]+): note: fails (?:with --missingkey ([a-z]+) )?for (.*)")
ABSENT = re.compile(r'(t:[0-9]+:[0-9]+: error: may fail: \.)([a-z]+) (may be absent: )(?:not in|no) "(required|properties)" (?:of|at) s:(?P<line>[0-9]+)\n')
KIND = re.compile(r"(t:[0-9]+:[0-9]+: error: may fail: .* (?:of|over) )(null|a boolean|a number|a text|a list)(, which may come here) \(s:(?P<line>[0-9]+)\).*\n")
FEW = re.compile(r'(t:[0-9]+:[0-9]+: error: may fail: "([a-z]+)" may get a list of too few items: )(?:no )?"minItems" at s:(?P<line>[0-9]+)[; ].*("minItems": ([0-9]+)\n)')
TYPES = {"null": ["null"], "a boolean": ["boolean"], "a number": ["integer", "number"], "a text": ["string"], "a list": ["array"]}
STOPPED = b': no template "stop"\n'
# a template that never fails, and the modes by which it is accepted
ACCEPTED = [
    ("text", ("each",)),
    ("{{.n}}{{range .items}}{{.name}}, {{end}}", ("each",)),
    ("{{range $i, $e := .items}}{{if $i}}, {{end}}{{$e.name}}{{else}}none{{end}}", ("each",)),
    ('{{define "w"}}{{.name}}{{range .items}}{{template "w" .}}{{end}}{{end}}{{template "w" .tree}}', ("each",)),
    ("{{$x := 0}}{{range .items}}{{$x = .name}}{{end}}{{print $x}}", ("each",)),
    ("{{if lt .n 3}}{{len .items}}{{end}}", ("each",)),
    ('{{if .items}}{{range .items}}{{html .name}}{{end}}{{else}}{{template "stop"}}{{end}}', ("each",)),
    ("{{with .user}}{{.name}}{{end}}{{if .user}}{{.user.name}}{{end}}", ("default",)),
    ("{{with .items}}{{(index . 0).name}}{{range slice . 1}}{{.name}}{{end}}{{end}}{{if .tree.items}}{{(index .tree.items 0).name}}{{end}}", ("each",)),
    ("{{$x := .user}}{{if .user}}{{$x.name}}{{end}}{{if $x}}{{.user.name}}{{end}}", ("default",)),
    ("{{if gt (len .items) 1}}{{(index .items 1).name}}{{end}}{{if lt (len .tree.items) 1}}{{else}}{{(index .tree.items 0).name}}{{end}}", ("each",)),
]
# one that may fail, the mode, and data for which it does
REFUSED = [
    ("{{.x}}", "error", DATA[0]),
    ("{{.user.name}}", "error", DATA[0]),
    ("{{with .user}}{{.name}}{{end}}", "error", DATA[0]),
    ("{{range .n}}{{.name}}{{end}}", "each", {**DATA[0], "n": 1}),
    ('{{lt .n "a"}}', "each", DATA[0]),
    ("{{len .n}}", "default", DATA[0]),
    ('{{template "w"}}', "each", DATA[0]),
    ("{{range .items}}{{.n}}{{end}}", "error", {**DATA[0], "items": [{"name": "a"}]}),
    ("{{range .items}}{{.name.x}}{{end}}", "default", {**DATA[0], "items": [{"name": "a"}]}),
    ("{{index .items 0}}", "default", DATA[0]),
    ("{{if .tree.items}}{{index .items 0}}{{end}}", "default", {**DATA[0], "tree": TREE}),
    ("{{$x := .user}}{{$x = .tree}}{{if $x}}{{.user.name}}{{end}}", "error", DATA[0]),
    ("{{if ge (len .items) 2}}{{index .items 2}}{{end}}", "each", {**DATA[0], "items": [{"name": "a"}, {"name": ""}]}),
    ("{{if lt (len .items) 2}}{{index .items 0}}{{end}}", "each", DATA[0]),
    ("{{with .items}}{{index . 2}}{{end}}", "each", {**DATA[0], "items": [{"name": "a"}, {"name": ""}]}),
    ('{{define "w"}}{{.name}}{{range .items}}{{template "w" .name}}{{end}}{{end}}{{template "w" .tree}}', "default", {**DATA[0], "tree": TREE}),
]


def ran(words, folder=None):
    return subprocess.run(words, stdout=subprocess.PIPE, stderr=subprocess.PIPE, timeout=harness.SECONDS, cwd=folder, check=False)


def is_valid(schema, value):
    """Whether a value is valid by jsonschema, which reads a schema by the draft that it names, or else 2020-12."""
    return jsonschema.validators.validator_for(schema, jsonschema.Draft202012Validator)(schema).is_valid(value)


def rendered(template, mode, data):
    """What came of a render."""
    with tempfile.TemporaryDirectory(dir=harness.MEMORY) as folder:
        for name, what in (("t", template), ("d", json.dumps(data))):
            with open(f"{folder}/{name}", "w", encoding="utf-8") as it:
                it.write(what)
        return ran([harness.PROGRAM, "--missingkey", mode, "--data", f"{folder}/d", f"{folder}/t"])


def write(folder, name, what):
    with open(f"{folder}/{name}", "w", encoding="utf-8") as it:
        it.write(what if isinstance(what, str) else json.dumps(what))


def on_small_stack():
    resource.setrlimit(resource.RLIMIT_STACK, (schema_rows.STACK, schema_rows.STACK))


def said_of(folder, schema, template, words, before=None):
    """The status of tmpl-check over a template and a schema, and the lines that it puts out, without warnings. `before` is called in its process."""
    write(folder, "s", schema if isinstance(schema, str) else json.dumps(schema))
    write(folder, "t", template)
    command = [harness.CHECKER, "--schema", "s", *words, "t"]
    ended = subprocess.run(command, cwd=folder, capture_output=True, timeout=harness.SECONDS, check=False, preexec_fn=before)
    lines = (ended.stdout + ended.stderr).decode().splitlines(keepends=True)
    return ended.returncode, [line for line in lines if ": warning: " not in line]


def checked(folder, schema, template, words, before=None):
    """The same as one text, without notes."""
    status, lines = said_of(folder, schema, template, words, before)
    return status, "".join(line for line in lines if not NOTE.match(line))


def note_faults(folder, schema, words, lines):
    """What is wrong with the notes among these lines, of a check whose files are in the folder: each is of the error before it, its value
    conforms, and tmpl fails over it at that line, and says the same."""
    asked = words[words.index("--missingkey") + 1] if "--missingkey" in words else None
    for before, line in zip(["", *lines], lines):
        found = NOTE.match(line)
        if found:
            place, mode, rest = found.groups()
            value, end = json.JSONDecoder().raw_decode(rest)
            write(folder, "d", rest[:end])
            ended = ran([harness.PROGRAM, "--missingkey", mode or asked or "default", "--data", "d", *named(words), "t"], folder)
            pattern = re.escape(f"tmpl: t:{place.split(':')[1]}: in ") + r'"(?:[^"\\]|\\.)*"' + re.escape(rest[end:] + "\n")
            if not before.startswith(f"{place}: error: may fail: "):
                yield f"    {line!r} after {before!r}"
            if ended.returncode != 1 or not re.fullmatch(pattern, ended.stderr.decode()):
                yield f"    {line!r}: {ended.returncode} {ended.stderr!r}"
            if not conforming.conforms(schema, schema, value) or jsonschema and not is_valid(schema, value):
                yield f"    {line!r}: the value does not conform to {json.dumps(schema)}"


def named(words):
    return words[words.index("--name") :][:2] if "--name" in words else []


def verdict(template, mode):
    """Whether tmpl-check accepts a template by a mode, over the schema of above."""
    words = ["--stop", "stop"] + ([] if mode == "each" else ["--missingkey", mode])
    with tempfile.TemporaryDirectory(dir=harness.MEMORY) as folder:
        status, out = checked(folder, SCHEMA, template, words)
    if status == 1 and ": error: may fail: " in out:
        return "may fail"
    return "accepted" if (status, out) == (0, "") else f"status {status}: {out}"


def placed(text, token):
    """The line and the column of what stands in a text, of ASCII, for the first time."""
    front = text[: text.index(token)] if token else ""
    return f"{front.count(chr(10)) + 1}:{len(front) - front.rfind(chr(10))}"


def told(folder, words):
    """What tmpl-check tells over the schema s, without the file, the line and the column, and without warnings and notes."""
    lines = ran([harness.CHECKER, "--schema", "s", *words], folder).stdout.decode().splitlines()
    return [line.partition(": error: may fail: ")[2] for line in lines if ": warning: " not in line and ": note: " not in line]


def misread_results(folder):
    """Schemas that say less than they seem to by a reader of another draft or of another document: the value is valid by jsonschema, the template
    fails over it, and it is not accepted."""
    for title, schema, template, value in schema_rows.MISREAD:
        status, out = checked(folder, schema, template, [])
        yield f"misread: {title}", 1, [] if status == 1 else [f"    status {status}: {out}"]
        came = rendered(template, "default", value)
        yield f"render of: {title}", 1, [] if came.returncode == 1 else [f"    status {came.returncode}"]
        if jsonschema is not None:
            yield f"value of: {title}", 1, [] if is_valid(schema, value) else ["    it is not valid"]


def loop_results(folder):
    """Copy loops over a name: those that are accepted, and near ones that are refused and fail for their data."""
    for title, template, words in schema_rows.LOOPS:
        came = checked(folder, schema_rows.of({"name": schema_rows.TEXT}), template, words)
        yield f"loop: {title}", 1, [] if came[0] == 0 and ": error: " not in came[1] else [f"    {came}, and not accepted"]
    for file, names in schema_rows.QUOTES.items():
        for name in names:
            words = ["--library", f"{harness.TOP}/examples/quotes/{file}"]
            came = checked(folder, schema_rows.of({"name": schema_rows.TEXT}), '{{template "%s" .name}}' % name, words)
            yield f"quotes: {name}", 1, [] if came == (0, "") else [f"    {came}, and not accepted"]
    for name in schema_rows.NO_STOPS:
        came = checked(folder, {}, '{{template "%s"}}' % name, [])
        yield f"no stop: {name}", 1, [] if came == (1, f't:1:1: error: may fail: there is no template "{name}"\n') else [f"    {came}"]
    for title, template, name, kind in schema_rows.NEAR_LOOPS:
        status, out = checked(folder, schema_rows.of({"name": kind}), template, [])
        write(folder, "d", json.dumps({"name": name}))
        ended = ran([harness.PROGRAM, "--data", "d", "t"], folder)
        good = status == 1 and "error: may fail: " in out and ended.returncode == 1
        yield f"near a loop: {title}", 1, [] if good else [f"    status {status}: {out}; {ended.returncode}"]


def hostile_results(folder):
    """Schemas and templates that lead to much work, or have much inside one another: each is checked within some seconds of a processor, on a
    small stack of the machine."""
    limited = [(row, schema_rows.SECONDS) for row in schema_rows.HOSTILE] + [(row, schema_rows.SOON) for row in schema_rows.BOUNDED]
    for (title, schema, template, words, said), most in limited:
        before = resource.getrusage(resource.RUSAGE_CHILDREN)
        status, out = checked(folder, schema, template, words, on_small_stack)
        after = resource.getrusage(resource.RUSAGE_CHILDREN)
        seconds = after.ru_utime + after.ru_stime - before.ru_utime - before.ru_stime
        good = (status, out) == (0, "") if said is None else status == 1 and said in out
        yield f"hostile: {title}", 1, [] if good else [f"    status {status}: {out[:300]}, and not {said}"]
        yield f"time of: {title}", 1, [] if seconds < most else [f"    {seconds:.1f} seconds"]


def beside_results(folder):
    """A schema beside data: an error is told of each that is wrong, and of nothing else."""
    for title, template, data, wanted in schema_rows.BESIDE:
        write(folder, "s", schema_rows.BESIDE_SCHEMA)
        write(folder, "t", template)
        write(folder, "d", data)
        came = ran([harness.CHECKER, "--schema", "s", "--data", "d", "t"], folder)
        lines = [line for line in came.stdout.decode().splitlines() if ": note: " not in line]
        good = came.returncode == (1 if wanted else 0) and len(lines) == len(wanted) and all(line.startswith(front) for line, front in zip(lines, wanted))
        yield f"beside: {title}", 1, [] if good else [f"    {came.returncode} {lines}, and not {wanted}"]


def held_results(folder):
    """Data that is held to a schema: an error at each place at which it does not conform, with the line of the keyword."""
    write(folder, "t", "text")
    for title, schema, data, wanted in schema_rows.HELD:
        write(folder, "s", schema)
        write(folder, "d", data)
        came = ran([harness.CHECKER, "--schema", "s", "--data", "d", "t"], folder)
        lines = ["d:" + it.replace(": ", ": error: does not conform: ", 1) + " at s:1" for it in wanted]
        good = (came.returncode, came.stdout.decode().splitlines(), came.stderr) == (int(bool(wanted)), lines, b"")
        yield f"held: {title}", 1, [] if good else [f"    {came.returncode} {came.stdout.decode()}, and not {lines}"]
    for title, schema, data in schema_rows.UNSEEN:
        write(folder, "s", schema)
        write(folder, "d", data)
        came = ran([harness.CHECKER, "--schema", "s", "--data", "d", "t"], folder)
        lines = [line for line in came.stdout.decode().splitlines() if ": warning: " not in line]
        good = (came.returncode, lines) == (1, ["d:1:1: error: does not conform: it is not seen that it does"])
        yield f"held: {title}", 1, [] if good else [f"    {came.returncode} {lines}"]
    write(folder, "s", '{\n "type": "object",\n "properties": {\n  "a": {\n   "minimum": 1}}}')
    write(folder, "d", '{"a": 0}')
    came = ran([harness.CHECKER, "--schema", "s", "--data", "d", "t"], folder).stdout.decode()
    wanted = 'd:1:2: error: does not conform: .a: 0 is below "minimum": 1 at s:5\n'
    yield "held: the line of the keyword", 1, [] if came == wanted else [f"    {came}, and not {wanted}"]


def example_results(folder):
    """The templates of examples/ with a schema each, without those that quote by bytes, which are stops."""
    for name, schema, said in schema_rows.EXAMPLES:
        example = f"{harness.TOP}/examples/{name}"
        with open(f"{example}/args", encoding="utf-8") as it:
            files = [f"{example}/{word}" for word in it.read().split() if word.endswith(".tmpl") and not word.startswith("..")]
        write(folder, "s", schema)
        came = told(folder, ["--stop", "nginx", *files])
        yield f"example {name}", 1, [] if came == ([] if said is None else [said]) else [f"    {came}, and not {said}"]
        if said is None and os.access(f"{example}/data.json", os.R_OK):
            with open(f"{example}/data.json", encoding="utf-8") as it:
                yield f"data of example {name}", 1, [] if conforming.conforms(schema, schema, json.load(it)) else ["    it does not conform"]


def cookbook_results(folder):
    """The templates of the cookbook with a schema each."""
    with open(f"{harness.TOP}/docs/COOKBOOK.md", encoding="utf-8") as it:
        text = it.read()
    for template, schema, quotes, words, said in schema_rows.COOKBOOK:
        block = text.partition(f"<!-- save: {template} -->\n```text\n")[2].partition("```\n")[0]
        if not block and template not in text:
            yield f"cookbook: {template}", 1, ["    it is not in the cookbook"]
            continue
        write(folder, "s", schema)
        write(folder, "t", block or template)
        files = [f"{harness.TOP}/examples/quotes/{name}" for name in quotes]
        came = told(folder, [*words, "t", *files])
        good = came == [] if said is None else said in came
        yield f"cookbook: {template}", 1, [] if good else [f"    {came}, and not {said}"]


def read_schema(schema):
    return json.loads(schema) if isinstance(schema, str) else schema


def row_results():
    """The rows over a JSON Schema."""
    with tempfile.TemporaryDirectory(dir=harness.MEMORY) as folder:
        for title, schema, template, words in schema_rows.ACCEPTED:
            came = checked(folder, schema, template, words)
            yield f"accepted: {title}", 1, [] if came == (0, "") else [f"    {came}, and not accepted"]
        for title, schema, template, words, line in schema_rows.REFUSED:
            status, lines = said_of(folder, schema, template, words)
            came = status, "".join(line for line in lines if not NOTE.match(line))
            yield f"refused: {title}", 1, [] if came == (1, f"t:{line}\n") else [f"    {came}, and not {line}"]
            yield f"value for: {title}", 1, list(note_faults(folder, read_schema(schema), words, lines))
        for title, schema, template, words, wanted in schema_rows.SHOWN:
            status, lines = said_of(folder, schema, template, words)
            good = (status, lines) == (1, [f"t:{line}\n" for line in wanted])
            yield f"shown: {title}", 1, [] if good else [f"    {status} {lines}, and not {wanted}"]
            yield f"value for: {title}", 1, list(note_faults(folder, read_schema(schema), words, lines))
        yield from timed_row(folder)
        yield from pattern_rows(folder)
        yield from inferred_rows(folder)
        for title, schema, template, words, lines in schema_rows.SEVERAL:
            came = checked(folder, schema, template, words)
            wanted = "".join(f"t:{line}\n" for line in lines)
            yield f"several: {title}", 1, [] if came == (1, wanted) else [f"    {came}, and not {wanted!r}"]
        for title, schema, token, said in schema_rows.UNREAD:
            wanted = f"s:{placed(schema, token)}: error: schema not understood: {said}\n"
            came = checked(folder, schema, "text", [])
            yield f"schema: {title}", 1, [] if came == (1, wanted) else [f"    {came}, and not {wanted!r}"]
        yield from warned_rows(folder)
        for title, schema, wanted in schema_rows.EMPTY:
            write(folder, "s", schema)
            write(folder, "t", "text")
            came = ran([harness.CHECKER, "--schema", "s", "t"], folder)
            good = (came.returncode, came.stdout.decode(), came.stderr) == (0, wanted and f"s:{wanted}: no value conforms to this schema\n", b"")
            yield f"no values: {title}", 1, [] if good else [f"    {came}, and not {wanted}"]
        yield from misread_results(folder)
        yield from loop_results(folder)
        yield from hostile_results(folder)
        yield from beside_results(folder)
        yield from held_results(folder)
        yield from example_results(folder)
        yield from cookbook_results(folder)
        came = checked(folder, '{"type": "object",}', "text", [])
        yield "schema that is not JSON", 1, [] if came[0] == 1 and came[1].startswith("s:1:19: error: not JSON: ") else [f"    {came}"]


def warned_rows(folder):
    """Warnings of a schema that is read, with which `--strict` makes the exit status 1, and keywords that need none."""
    write(folder, "t", "text")
    for title, schema, token, said in schema_rows.WARNED:
        write(folder, "s", schema)
        wanted = "" if said is None else f"s:{placed(schema, token)}: warning: {said}\n"
        for words, status in ([], 0), (["--strict"], int(said is not None)):
            came = ran([harness.CHECKER, "--schema", "s", *words, "t"], folder)
            good = (came.returncode, came.stdout.decode(), came.stderr) == (status, wanted, b"")
            yield f"warned: {title} {words}", 1, [] if good else [f"    {came}, and not {wanted!r}"]
    for keyword in schema_rows.KEYWORDS:
        write(folder, "s", {keyword: {}})
        came = ran([harness.CHECKER, "--schema", "s", "--strict", "t"], folder)
        yield f"the keyword {keyword}", 1, [] if (came.returncode, came.stdout, came.stderr) == (0, b"", b"") else [f"    {came}"]


def inferred(folder, texts, words=()):
    """The status of tmpl-check --infer with these words over files of these texts, and what it puts out."""
    names = []
    for number, text in enumerate(texts):
        names.append(f"d{number}")
        write(folder, names[-1], text)
    ended = ran([harness.CHECKER, "--infer", *words, *names], folder)
    return ended.returncode, (ended.stdout + ended.stderr).decode()


def inferred_faults(folder, samples, out):
    """What is wrong with a schema that is inferred: tmpl-check reads it, and each sample conforms."""
    schema = json.loads(out)
    if out != json.dumps(schema, indent=2, ensure_ascii=False) + "\n" or schema.get("$schema") != conforming.HEAD:
        yield f"    {out!r}"
    came = checked(folder, out, "text", [])
    if came != (0, ""):
        yield f"    {out}: {came}"
    for sample in samples:
        if not conforming.conforms(schema, schema, sample) or jsonschema and not is_valid(schema, sample):
            yield f"    {json.dumps(sample)} does not conform to {out}"


def timed_row(folder):
    """A check that fails of a template of 70 lines, each run of which takes thousands of steps, with and without the search."""
    names = [f"f{number}" for number in range(100)]
    schema = {"type": "object", "required": ["kind"], "additionalProperties": False,
              "properties": {**{name: {"type": "integer"} for name in names}, "kind": {"enum": list(range(60))}}}
    template = "{{range 9000}}{{end}}{{$k := .kind}}" + "\n".join(
        f'{{{{if eq $k {number}}}}}{{{{with index . "f{number}"}}}}{{{{len .}}}}{{{{end}}}}{{{{end}}}}' for number in range(60)) + "\n" * 10
    for words in ([], ["--no-counterexamples"]):
        before = resource.getrusage(resource.RUSAGE_CHILDREN).ru_utime
        status, lines = said_of(folder, schema, template, words)
        took = resource.getrusage(resource.RUSAGE_CHILDREN).ru_utime - before
        notes = any(NOTE.match(line) for line in lines)
        good = status == 1 and took < MOST_SECONDS and notes == (not words)
        yield f"time of a check that fails {words}", 1, [] if good else [f"    {status}, {took} s, notes {notes}"]


def pattern_rows(folder):
    """What is drawn of patterns: the text that stands there, in which the pattern is found."""
    for pattern, wanted in schema_rows.PATTERNS:
        schema = schema_rows.of({"a": {"type": "string", "pattern": pattern}})
        _, lines = said_of(folder, schema, "{{range .a}}{{end}}", [])
        notes = [NOTE.match(line)[3] for line in lines if NOTE.match(line)]
        data = None if wanted is None else json.dumps({"a": wanted}, separators=(",", ":"), ensure_ascii=False)
        came = [note[: len(data)] if data else note for note in notes]
        faults = [] if came == [data] * (wanted is not None) else [f"    {notes}, and not {data}"]
        if wanted is not None and not re.search(pattern, wanted):
            faults.append(f"    {wanted!r} does not have it")
        yield f"a text of the pattern {pattern!r}", 1, faults


def inferred_rows(folder):
    for title, samples, wanted in schema_rows.INFERRED:
        status, out = inferred(folder, map(json.dumps, samples))
        schema = {"$schema": conforming.HEAD, **wanted}
        good = status == 0 and json.loads(out) == schema
        yield f"inferred: {title}", 1, [] if good else [f"    {status} {out}, and not {schema}"]
        yield f"samples of: {title}", 1, list(inferred_faults(folder, samples, out)) if status == 0 else []
    for paths, samples, wanted in schema_rows.INFERRED_BY:
        words = [word for path in paths for word in ("--map", path)]
        status, out = inferred(folder, map(json.dumps, samples), words)
        good = status == 0 and json.loads(out) == {"$schema": conforming.HEAD, **wanted}
        yield f"inferred: by {paths}", 1, [] if good else [f"    {status} {out}, and not {wanted}"]
        yield f"samples of: {paths}", 1, list(inferred_faults(folder, samples, out)) if status == 0 else []
    before = resource.getrusage(resource.RUSAGE_CHILDREN).ru_utime
    status, out = inferred(folder, [json.dumps([{f"k{number}": number} for number in range(16_000)])])
    took = resource.getrusage(resource.RUSAGE_CHILDREN).ru_utime - before
    yield "time of 16,000 maps of a key each", 1, [] if status == 0 and took < 3 else [f"    {status}, {took} s"]
    for title, texts, wanted in schema_rows.NOT_INFERRED:
        came = inferred(folder, texts)
        yield f"not inferred: {title}", 1, [] if came == wanted else [f"    {came}, and not {wanted}"]


def drawn_samples(seed, count):
    """Schemas that are inferred of random samples."""
    with tempfile.TemporaryDirectory(dir=harness.MEMORY) as folder:
        for number in range(seed, seed + count):
            draw = random.Random(number)
            schema = conforming.drawn_document(draw)
            samples = [conforming.drawn_value(draw, schema, schema, 5) for _ in range(draw.randrange(1, 5))]
            status, out = inferred(folder, map(json.dumps, samples))
            yield f"inferred of samples {number}", 1, list(inferred_faults(folder, samples, out)) if status == 0 else [f"    {status} {out}"]


def drawn_values(seed, count):
    """Values that are shown for random templates over random schemas."""
    shown = 0
    with tempfile.TemporaryDirectory(dir=harness.MEMORY) as folder:
        for number in range(seed, seed + count):
            draw = random.Random(number)
            schema = conforming.drawn_document(draw)
            mode = draw.choice(("each", *MODES))
            words = [] if mode == "each" else ["--missingkey", mode]
            template = "\n".join(['{{define "w"}}{{print .}}{{end}}', *conforming.drawn_template(draw)])
            _, lines = said_of(folder, schema, template, words)
            shown += sum(": note: " in line for line in lines)
            yield f"values of drawn {number}", 1, [f"{fault}\n    {template!r}" for fault in note_faults(folder, schema, words, lines)]
    yield "values that are shown", 1, [] if shown > count / 2 else [f"    {shown} alone"]


def placed_parts(value, line=1, path=()):
    """The parts of a value with the lines on which they begin, where it is put out with each part on a line of its own."""
    yield line, path
    line += 1
    for key, part in value.items() if isinstance(value, dict) else enumerate(value) if isinstance(value, list) else ():
        yield from placed_parts(part, line, (*path, key))
        line += json.dumps(part, indent=1).count("\n") + 1


def at(value, path):
    for key in path:
        value = value[key]
    return value


def mended(schema, line, found):
    """The schema in which what a line of tmpl-check names at this line no longer lets the value through."""
    mended = json.loads(json.dumps(schema))
    path = dict(placed_parts(schema))[line]
    if found.re is ABSENT:
        it = at(mended, path[:-1] if path and path[-1] in ("required", "properties") and isinstance(at(schema, path), (list, dict)) else path)
        name = found[2]
        it.setdefault("properties", {}).setdefault(name, True)
        it["required"] = [*it.get("required", []), name]
        return mended
    if found.re is FEW:
        at(mended, path[:-1] if path and path[-1] == "minItems" else path)["minItems"] = int(found[5])
        return mended
    it = at(mended, path[:-1]) if path and path[-1] in ("type", "enum", "const") else at(mended, path)
    if it is True:
        return None
    types = it.get("type", ["null", "boolean", "integer", "string", "array", "object"])
    it["type"] = [name for name in ([types] if isinstance(types, str) else types) if name not in TYPES[found[2]]]
    return mended


def is_again(line, found):
    """Whether a line says what another does, of which this was found, whatever it says of the schema."""
    if found.re is FEW:
        return line.startswith(found[1]) and line.endswith(found[4])
    return line.startswith(found[0][: found.end(2)] + " may be absent" if found.re is ABSENT else found[0][: found.end(3)])


def drawn_reasons(seed, count):
    """Lines of schemas that are told as reasons: where the schema is mended there, the same is said of the action no more."""
    tried = 0
    with tempfile.TemporaryDirectory(dir=harness.MEMORY) as folder:
        for number in range(seed, seed + count):
            draw = random.Random(number)
            schema = conforming.drawn_document(draw)
            mode = draw.choice(("each", *MODES))
            words = [] if mode == "each" else ["--missingkey", mode]
            template = "\n".join(['{{define "w"}}{{print .}}{{end}}', *conforming.drawn_template(draw)])
            _, lines = said_of(folder, json.dumps(schema, indent=1), template, words)
            for line in lines:
                found = ABSENT.fullmatch(line) or KIND.fullmatch(line) or FEW.fullmatch(line)
                other = mended(schema, int(found["line"]), found) if found else None
                # an action that may fail is told by its first column, so of two in a line that ask for one name, or call one function, nothing is known
                name = found and {ABSENT: f".{found[2]}", FEW: found[2]}.get(found.re)
                if other is None or name and template.split("\n")[int(line.split(":")[1]) - 1].count(name) > 1:
                    continue
                tried += 1
                _, after = said_of(folder, json.dumps(other, indent=1), template, words)
                good = not any(is_again(it, found) for it in after)
                yield f"reason of {number}", 1, [] if good else [f"    {line}    {json.dumps(schema)}\n    {template!r}\n    {json.dumps(other)}: {after}"]
    yield "reasons that were mended", 1, [] if tried > count / 4 else [f"    {tried} alone"]


def accepted_part(folder, schema, lines, words):
    """What is left of a template once the lines are taken out that are refused."""
    lines = ['{{define "w"}}{{print .}}{{end}}', *lines]
    for _ in range(len(lines)):
        status, out = checked(folder, schema, "\n".join(lines), words)
        if status == 0:
            return "\n".join(lines)
        for place in (line.split(":") for line in out.splitlines()):
            if status != 1 or place[0] != "t":
                raise ValueError(f"status {status}: {out}")
            lines[int(place[1]) - 1] = ""
    return None


def drawn_results(seed, count):
    """Random schemas, templates that are accepted, and values that conform."""
    tried = 0
    with tempfile.TemporaryDirectory(dir=harness.MEMORY) as folder:
        for number in range(seed, seed + count):
            draw = random.Random(number)
            schema = conforming.drawn_document(draw)
            mode = draw.choice(("each", *MODES))
            words = [] if mode == "each" else ["--missingkey", mode]
            values = [conforming.drawn_value(draw, schema, schema, 5) for _ in range(12)]
            good = [value for value in values if conforming.conforms(schema, schema, value)][:3]
            if jsonschema is not None:
                theirs = [is_valid(schema, value) for value in values]
                ours = [conforming.conforms(schema, schema, value) for value in values]
                yield f"what conforms to schema {number}", 1, [] if theirs == ours else [f"    {json.dumps(schema)}: {list(zip(values, theirs, ours))}"]
            template = accepted_part(folder, schema, conforming.drawn_template(draw), words)
            if not good or template is None:
                continue
            for one, value in itertools.product(modes_of(mode), good):
                came = rendered(template, one, value)
                tried += 1
                said = f"    {json.dumps(schema)}\n    {template!r} over {json.dumps(value)}: {came.stderr!r}"
                is_well = came.returncode == 0 or came.stderr.endswith(b': no template "%s"\n' % conforming.STOP.encode())
                yield f"drawn {number} by {one}", 1, [] if is_well else [said]
    yield "renders of drawn templates", 1, [] if tried > count else [f"    {tried} alone"]


def drawn_held(seed, count):
    """Random schemas and data: data in which no error is found conforms, and data of which a place is named does not."""
    found = {True: 0, False: 0}
    with tempfile.TemporaryDirectory(dir=harness.MEMORY) as folder:
        write(folder, "t", "text")
        for number in range(seed, seed + count):
            draw = random.Random(number)
            schema = conforming.drawn_document(draw)
            write(folder, "s", schema)
            for value in (conforming.drawn_value(draw, schema, schema, 5) for _ in range(4)):
                write(folder, "d", json.dumps(value))
                came = ran([harness.CHECKER, "--schema", "s", "--data", "d", "t"], folder)
                lines = [line for line in came.stdout.decode().splitlines() if ": error: " in line]
                if any(not line.startswith("d:") or line.endswith("it is not seen that it does") for line in lines):
                    continue
                fits = conforming.conforms(schema, schema, value) and (jsonschema is None or is_valid(schema, value))
                found[fits] += 1
                good = came.returncode == (1 if lines else 0) and fits == (not lines)
                yield f"held {number}", 1, [] if good else [f"    {json.dumps(schema)}: {json.dumps(value)}: {lines}"]
    yield "data that was held", 1, [] if min(found.values()) > count / 8 else [f"    {found} alone"]


def modes_of(mode):
    return MODES if mode == "each" else (mode,)


def results():
    for template, modes in ACCEPTED:
        for mode in modes:
            said = verdict(template, mode)
            yield f"{template} by {mode}", 1, [] if said == "accepted" else [f"    {said!r}, and not accepted"]
            for one, data in itertools.product(modes_of(mode), DATA):
                came = rendered(template, one, data)
                good = came.returncode == 0 or came.returncode == 1 and came.stderr.endswith(STOPPED)
                yield f"{template} by {one} over {data}", 1, [] if good else [f"    status {came.returncode}: {came.stderr!r}"]
    for template, mode, data in REFUSED:
        said = verdict(template, mode)
        yield f"{template} by {mode}", 1, [] if said == "may fail" else [f"    {said!r}, and not refused"]
        came = [rendered(template, one, data).returncode for one in modes_of(mode)]
        yield f"{template} by {mode} over {data}", 1, [] if 1 in came else [f"    no render failed: {came}"]


def narrow():
    """Leaves, of the rows, those alone whose titles hold what -k asks for."""
    for name, rows in list(vars(schema_rows).items()):
        if name.isupper() and isinstance(rows, list):
            setattr(schema_rows, name, [it for it in rows if harness.ROWS in str(it[0])])


def main():
    if not harness.is_built(harness.PROGRAM, harness.CHECKER):
        return harness.closing(0, 1)
    if harness.ROWS:
        narrow()
        return harness.closing(*harness.tally(row_results())[:2])
    tools.lack("jsonschema", "what it says of data that conform")
    seed, count = map(int, sys.argv[1:3]) if len(sys.argv) > 2 else (1, 400)
    passed, failed, _ = harness.tally(
        itertools.chain(
            results(),
            row_results(),
            drawn_results(seed, count),
            drawn_held(seed, count // 4),
            drawn_values(seed, count // 4),
            drawn_reasons(seed, count // 8),
            drawn_samples(seed, count // 4),
        )
    )
    return harness.closing(passed, failed)


if __name__ == "__main__":
    sys.exit(main())
