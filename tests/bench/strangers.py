"""Measures what strangers choose: templates, data and schemas of families in which one thing is there very often, and checks that fail. Each
is run by a program of its own at a size and at a quarter of it. The table of docs/SPEED.md states the time, the bytes that are held for a
byte of input, and how much more a byte costs in the larger one: 1 where time is linear. Start-up, as that of an empty file, is subtracted.

    strangers.py [--dry]

TMPL and TMPL_CHECK name other builds; the library is that of `make lib`."""
import json
import os
import subprocess
import sys
import tempfile

from tests.bench import bench
from tests.lib import harness

BEGIN, END = "<!-- made by `make bench`, strangers: begin -->\n", "<!-- made by `make bench`, strangers: end -->\n"
HEADINGS = ["| What | Size | Time | Held, bytes a byte | A byte more, beside a quarter | Wanted |", "|---|---|---|---|---|---|"]
MB = 1_000_000
MOST_SECONDS, MOST_BYTES = 2, 300 * MB  # of a schema and templates of 1 MB together
MOST_HELD = 60  # bytes a byte of templates and schemas
MOST_GROWTH = 2
NAME = "m"
LIBRARY = """
import sys, tmpl
path, call = sys.argv[1:]
with open(path, "rb") as it:
    what = it.read()
getattr(tmpl, "Templates" if call == "add" else "check")({"m": what})
"""


def repeated(piece, size):
    return piece * max(1, size // len(piece))


def numbered(pieces, size, joint=b""):
    """Pieces of numbers up to a size: the pieces are made by a function of the number."""
    made, total, number = [], 0, 0
    while total < size:
        made.append(pieces(number))
        total += len(made[-1]) + len(joint)
        number += 1
    return joint.join(made)


def schema_of(**more):
    return json.dumps({"type": "object", **more}).encode()


# ---- the families: what is read by which program; a schema comes with its template

TEMPLATES = {
    "operands of `and`": lambda size: b"{{and" + repeated(b" 1", size) + b"}}",
    "`{{.}}`": lambda size: repeated(b"{{.}}", size),
    "`{{$x:=1}}`": lambda size: repeated(b"{{$x:=1}}", size),
    "commands of a pipeline": lambda size: b"{{1" + repeated(b"|print", size) + b"}}",
    "definitions": lambda size: numbered(lambda at: b'{{define "%d"}}{{end}}' % at, size),
}
MISTAKES = {
    "`{`": lambda size: repeated(b"{", size),
    "`{{`": lambda size: repeated(b"{{\n", size),
    "unknown functions": lambda size: repeated(b"{{f}}\n", size),
    "undeclared variables": lambda size: numbered(lambda at: b"{{$v%d}}" % at, size),
}
DATA = {
    '`{"":0}`': lambda size: b"[" + repeated(b'{"":0},', size) + b"0]",
    "strings": lambda size: b"[" + repeated(b'"",', size) + b"0]",
    "lists of 127 levels": lambda size: b"[" + repeated(b"[" * 126 + b"]" * 126 + b",", size) + b"0]",
    "keys": lambda size: b"{" + numbered(lambda at: b'"%d":0' % at, size, b",") + b"}",
}
SCHEMAS = {
    "properties": lambda size: (schema_of(properties={str(at): {"type": "string"} for at in range(min(9_000, size // 28))}), b"{{.x}}"),
    "alternatives by reference": lambda size: (
        schema_of(required=["a"], properties={"a": {"anyOf": [{"$ref": "#/$defs/x"}] * min(1_000, size // 24)}}, **{"$defs": {"x": {"type": "string"}}}), b"{{len .a}}"),
    "`items` in one another, and four actions": lambda size: (nested(min(80, size // 12)), b"{{range .}}{{range .}}{{.}}{{end}}{{end}}{{len .}}"),
    "actions of a field": lambda size: (WHOLE, repeated(b"{{.a}}", size)),
    "aliases and guards": lambda size: (WHOLE, numbered(lambda at: b"{{$v%d := .a}}" % (at % 300), size // 2) + repeated(b"{{if .a}}x{{end}}", size // 2)),
    "a chain of calls": lambda size: (
        WHOLE, b'{{template "0" .}}' + numbered(lambda at: b'{{define "%d"}}{{template "%d" .}}{{end}}' % (at, at + 1), size)
        + b'{{define "%d"}}{{end}}' % sum(1 for _ in chain(size))),
    "assignments in ranges": lambda size: (WHOLE, b"{{$x := 1}}" + repeated(b"{{range .l}}{{$x = .}}{{end}}", size)),
}
# templates of as many services of three lines each as fit the size: each line may fail, and counterexamples are looked for
FAILING = {
    "a template of 70 lines, each of which may fail": lambda size: services(23 * size // 70),
    "a template of 700 lines, each of which may fail": lambda size: services(233 * size // 70),
}
WHOLE = schema_of(required=["a", "l"], properties={"a": {"type": "string"}, "l": {"type": "array", "items": {"type": "integer"}}})
SAMPLES = {
    "maps of one key each": lambda size: b"[" + numbered(lambda at: b'{"k%d":0}' % at, size, b",") + b"]",
    "maps of the same keys": lambda size: b"[" + repeated(b'{"a":0,"b":"x"},', size) + b"{}]",
}


def chain(size):
    """The numbers of the definitions of a chain of calls of a size."""
    total, number = 0, 0
    while total < size:
        total += len(b'{{define "%d"}}{{template "%d" .}}{{end}}' % (number, number + 1))
        yield number
        number += 1


def services(count):
    """A schema of services of which no field is required, and a template of three lines for each."""
    service = {"type": "object", "properties": {"name": {"type": "string"}, "port": {"type": "integer"}, "tags": {"type": "array", "items": {"type": "string"}}}}
    lines = "{{.s%d.name}}\n{{range .s%d.tags}}{{.}}{{end}}\n{{if gt .s%d.port 80}}x{{end}}\n"
    return schema_of(properties={f"s{at}": service for at in range(count)}), "".join(lines % (at, at, at) for at in range(count)).encode()


def nested(levels):
    """A schema of lists in lists; the innermost has strings."""
    schema = {"type": "string"}
    for _ in range(levels):
        schema = {"type": "array", "items": schema}
    return json.dumps(schema).encode()


def held(words):
    """Seconds and bytes of a program, whatever its exit status."""
    ran = subprocess.run([PEAK_RUN, *words], stdout=subprocess.PIPE, text=True)
    status, nanoseconds, kib = map(int, ran.stdout.split()[-3:])
    return nanoseconds / 1e9, kib * 1024


class Table:
    def __init__(self):
        self.rows = []

    def row(self, what, size, near, far, floor, wanted):
        """`near` and `far` are seconds and bytes at a quarter of the size and at the size; `floor` those of an empty file."""
        (near_time, _), (far_time, far_bytes) = near, far
        each = max(far_bytes - floor[1], 0) / size
        growth = max(far_time - near_time, 0) / max(3 * (near_time - floor[0]), 1e-4)
        cells = [what, f"{size / MB:.2g} MB", bench.shown(far_time), f"{each:.0f}", f"{growth:.2f}", wanted(far_time, far_bytes, each, growth)]
        self.rows.append(f"| {' | '.join(cells)} |")
        print(*cells, sep=", ", flush=True)


def told(*held_by):
    return "; ".join(f"{what}: {'holds' if is_held else 'does not hold'}" for what, is_held in held_by)


def of_files(seconds, _, each, growth):
    return told((f"{MOST_HELD} bytes a byte", each <= MOST_HELD), (f"growth {MOST_GROWTH}", growth <= MOST_GROWTH))


def of_growth(*told_of):
    return told((f"growth {MOST_GROWTH}", told_of[3] <= MOST_GROWTH))


def of_check(seconds, held_bytes, *_):
    return told((f"{MOST_SECONDS} s, {MOST_BYTES // MB} MB", seconds <= MOST_SECONDS and held_bytes <= MOST_BYTES))


def measure(table, folder, title, family, size, words, wanted):
    """A row of a family whose file, or whose schema and template, go to the words of a program."""
    def laid(make, size):
        made = make(size)
        files = dict(zip(("s", NAME), made)) if isinstance(made, tuple) else {NAME: made}
        for name, what in files.items():
            with open(f"{folder}/{name}", "wb") as it:
                it.write(what)
        return sum(map(len, files.values()))

    for what, make in family.items():
        with open(f"{folder}/{NAME}", "wb") as it:
            it.write(b"[]" if "data" in title or "infer" in title else b"")
        with open(f"{folder}/s", "wb") as it:
            it.write(b"{}")
        floor = held(words)
        laid(make, size // 4)
        near = held(words)
        far_size = laid(make, size)
        table.row(f"{title}: {what}", far_size, near, held(words), floor, wanted)


def rows(folder):
    table = Table()
    file, template = f"{folder}/{NAME}", f"{folder}/t"
    with open(template, "wb") as it:
        it.write(b"{{len .}}")
    script = f"{folder}/library.py"
    with open(script, "w", encoding="utf-8") as it:
        it.write(LIBRARY)
    check = harness.CHECKER
    measure(table, folder, "`tmpl --print`", TEMPLATES, 4 * MB, [harness.PROGRAM, "--print", file], of_files)
    measure(table, folder, "`tmpl`, data", DATA, 4 * MB, [harness.PROGRAM, "--data", file, template], of_growth)
    measure(table, folder, "`tmpl-check`", {**TEMPLATES, **MISTAKES}, 4 * MB, [check, file], of_files)
    measure(table, folder, "`tmpl-check --data`, data", DATA, 4 * MB, [check, "--data", file, template], of_growth)
    measure(table, folder, "`tmpl-check --schema`", SCHEMAS, MB, [check, "--schema", f"{folder}/s", file], of_check)
    measure(table, folder, "`tmpl-check --schema`", FAILING, 70, [check, "--schema", f"{folder}/s", "--missingkey", "error", file], of_check)
    measure(table, folder, "`tmpl-check --infer`", SAMPLES, MB, [check, "--infer", file], of_check)
    os.environ["PYTHONPATH"] = f"{harness.TOP}/bindings/python"
    os.environ.setdefault("LIBTMPL", f"{harness.TOP}/bindings/out/libtmpl.so")
    if os.path.exists(os.environ["LIBTMPL"]):
        for call in ("add", "check"):
            measure(table, folder, f"the library by Python, `{call}`", {**TEMPLATES, **(MISTAKES if call == "check" else {})}, 4 * MB,
                    [sys.executable, script, file, call], of_growth)
    return table.rows


def main(words):
    global PEAK_RUN
    if not harness.is_built():
        return 1
    with tempfile.TemporaryDirectory() as folder:
        PEAK_RUN = f"{folder}/run"
        subprocess.run(["cc", "-O2", f"{harness.TESTS}/bench/peak.c", "-o", f"{folder}/peak"], check=True)
        with open(PEAK_RUN, "w", encoding="utf-8") as it:
            it.write(f'#!/bin/sh\nexec {folder}/peak 3 "$@" 3>&1 >/dev/null 2>&1 </dev/null\n')
        os.chmod(PEAK_RUN, 0o755)
        lines = [bench.head("a limit of time and memory"), "", *HEADINGS, *rows(folder)]
    if "--dry" not in words:
        bench.publish(lines, BEGIN, END)
    return 0


if __name__ == "__main__":
    sys.exit(main(sys.argv[1:]))
