"""Checks outputs by tmpl-check --writes: rows over data, whose place of the action and of the output were worked out by hand; and rows over a
schema, in both directions. Of each error over a schema the data conforms, and what tmpl writes over it is refused by a reader of the
format: Python's json, csv and re, for variables the rules below with a shell, and for YAML PyYAML by the rules of both versions. Of random data the action that is named is the one that wrote the byte: without it the output
is the same before that byte. TMPL and TMPL_CHECK name other builds."""
import csv
import io
import json
import os
import random
import re
import subprocess
import sys
import tempfile

from tests.check import formats
from tests.lib import harness, tools
from tests.rows import output_rows

try:
    import jsonschema
except ImportError:
    jsonschema = None

QUOTES = f"{harness.TOP}/examples/quotes/quotes.tmpl"
ERROR = re.compile(r"(?P<file>[^:]+):(?P<place>\d+:\d+): error: (?:may write|writes) no (?P<format>\S+): expected .* at output:(?P<output>\d+:\d+)")
NOTE = re.compile(r"[^:]+:\d+:\d+: note: writes .* for (?P<data>[{\[].*)")
TURNS = 60  # random templates


def ran(words, folder):
    return subprocess.run(words, cwd=folder, capture_output=True, timeout=harness.SECONDS, check=False)


def write(folder, name, what):
    with open(f"{folder}/{name}", "w", encoding="utf-8") as it:
        it.write(what)


def lines_of(folder, words):
    """The status of tmpl-check over the template t, and its lines but for warnings."""
    ended = ran([harness.CHECKER, *words, "t", "--library", QUOTES], folder)
    return ended.returncode, [it for it in (ended.stdout + ended.stderr).decode().splitlines() if ": warning: " not in it]


def is_json(text):
    try:
        json.loads(text)
        return True
    except ValueError:
        return False


def is_csv(text, columns):
    try:
        return all(len(row) == columns for row in csv.reader(io.StringIO(text), strict=True) if row)
    except csv.Error:
        return False


# what a shell, systemd and dotenv read alike, by their rules
VALUE = r"""(?:[A-Za-z0-9_%+,./:=@?-]*|'[^'\0]*'|"(?:[^"\\$`\0]|\\["\\$`])*")"""
LINE = rf"(?:|\#[^\n\0\\]*|[A-Za-z_][A-Za-z0-9_]*={VALUE})"
ENV = re.compile(rf"(?:{LINE}\n)*{LINE}")


def is_env(text):
    """Whether it is of these lines, and a shell reads it as assignments alone: no variable is looked up, and no command runs."""
    told = subprocess.run(["/bin/sh", "-fuc", text], capture_output=True, env={"PATH": "/nowhere"}, timeout=harness.SECONDS, check=False)
    return bool(ENV.fullmatch(text)) and told.returncode == 0 and not told.stderr and not told.stdout


def is_yaml(text):
    """Whether PyYAML reads it, and readers of both versions take it for the same."""
    try:
        formats.read_yaml(text.encode())
        return True
    except ValueError:
        return False


def is_read(kind, text):
    """Whether a reader of the format takes a text."""
    if kind == "json":
        return is_json(text)
    if kind == "jsonl":
        return all(is_json(line) for line in text.split("\n") if line.strip(" \t\r"))
    if kind == "yaml":
        return formats.yaml is not None and is_yaml(text)
    if kind.startswith("lines:"):
        return all(re.search(kind[6:], line) for line in text.removesuffix("\n").split("\n"))
    return is_csv(text, int(kind[4:])) if kind.startswith("csv:") else is_env(text)


def data_results(folder):
    for title, kind, template, data, wanted in output_rows.OVER_DATA:
        write(folder, "t", template)
        write(folder, "d", data)
        status, lines = lines_of(folder, ["--data", "d", "--writes", kind])
        found = [ERROR.fullmatch(it) for it in lines if ": error: " in it]
        came = [(it["file"], it["place"], it["output"], it["format"]) if it else lines for it in found]
        good = came == ([] if wanted is None else [("t", *wanted, kind)]) and status == (wanted is not None)
        yield f"over data: {title}", [] if good else [f"    {status} {lines}, and not {wanted}"]


def schema_results(folder):
    for title, kind, schema, template, can_break in output_rows.OVER_SCHEMA:
        write(folder, "s", json.dumps(schema))
        write(folder, "t", template)
        status, lines = lines_of(folder, ["--schema", "s", "--writes", kind])
        errors = [it for it in lines if ": error: " in it]
        good = status == can_break and bool(errors) == can_break and all(map(ERROR.fullmatch, errors))
        yield f"over a schema: {title}", [] if good else [f"    {status} {lines}"]
        yield f"data of: {title}", list(data_faults(folder, kind, schema, lines)) if can_break else []


def data_faults(folder, kind, schema, lines):
    """What is wrong with the data of notes: it conforms, and what tmpl writes over it is read by no reader of the format."""
    notes = [it for it in map(NOTE.fullmatch, lines) if it]
    if not notes:
        yield f"    no note in {lines}"
    for note in notes:
        write(folder, "d", note["data"])
        if jsonschema is not None and not jsonschema.Draft202012Validator(schema).is_valid(json.loads(note["data"])):
            yield f"    {note['data']} does not conform"
        ended = ran([harness.PROGRAM, "--data", "d", "t", QUOTES], folder)
        if ended.returncode or is_read(kind, ended.stdout.decode()):
            yield f"    over {note['data']}: {ended}"


def drawn(random_, depth=0):
    """A template that may be of JSON or not, on one line mostly."""
    pieces = ["[", "]", ",", "1", " ", '"a"', "{{.n}}", "{{.s}}", '{{printf "%q" .s}}', "{{- .n -}}", "\n", "{{/* c */}}", "{{$x := 1}}"]
    made = []
    for _ in range(random_.randrange(1, 7)):
        at = random_.randrange(len(pieces) + 4 * (depth < 2))
        made.append(pieces[at] if at < len(pieces) else [
            "{{if .n}}" + drawn(random_, depth + 1) + "{{else}}" + drawn(random_, depth + 1) + "{{end}}",
            "{{range .l}}" + drawn(random_, depth + 1).replace(".n", "$.n").replace(".s", "$.s").replace(".l", "$.l") + "{{end}}",
            "{{with .z}}x{{else if .n}}" + drawn(random_, depth + 1) + "{{end}}",
            "{{if .z}}x{{else if .n}}" + drawn(random_, depth + 1) + "{{end}}",
        ][at - len(pieces)])
    return "".join(made)


def place_of(text, offset):
    before = text[:offset]
    return f"{before.count(chr(10)) + 1}:{len(before) - before.rfind(chr(10))}"


def offset_of(text, place):
    line, column = map(int, place.split(":"))
    return sum(len(it) + 1 for it in text.split("\n")[: line - 1]) + column - 1


def refused_results(folder):
    """Arguments by which nothing could be looked at are refused."""
    write(folder, "t", "1")
    write(folder, "d", "{}")
    for words in (["--writes", "json"], ["--data", "d", "--writes", "toml"], ["--data", "d", "--writes", "csv:0"]):
        came = ran([harness.CHECKER, *words, "t"], folder)
        yield f"refused: {words}", [] if (came.returncode, came.stdout) == (2, b"") and came.stderr else [f"    {came}"]


def random_results(folder):
    """The action that is named wrote the byte: where a run has no step for it, the output ends before the byte or at it, and with one step
    more it goes beyond, unless the output ends there."""
    random_ = random.Random(5)
    write(folder, "d", '{"n": 1, "s": "x", "l": [1, 2], "z": 0}')
    count = 0
    for _ in range(20 * TURNS):
        if count == TURNS:
            return
        template = drawn(random_)
        write(folder, "t", template)
        status, lines = lines_of(folder, ["--data", "d", "--writes", "json"])
        found = [it for it in map(ERROR.fullmatch, lines) if it]
        out = ran([harness.PROGRAM, "--data", "d", "t"], folder)
        if out.returncode:
            continue
        count += 1
        text = out.stdout.decode()
        if status != (not is_json(text)) or len(found) != status:
            yield f"random: {template!r}", [f"    {status} {lines} of {text!r}"]
            continue
        wrong = list(origin_faults(folder, template, text, found[0])) if found else []
        yield f"random: {template!r}", wrong
    yield "random templates", [f"    only {count} render"]


def origin_faults(folder, template, text, found):
    offset, start = offset_of(text, found["output"]), offset_of(template, found["place"])
    for steps in range(1, 1000):
        ended = ran([harness.PROGRAM, "--steps", str(steps), "--data", "d", "t"], folder)
        if len(ended.stdout.decode()) > offset or ended.returncode == 0:
            break
        last = ended.stderr.decode()
    else:
        return
    line = place_of(template, start).split(":")[0]
    if steps > 1 and f"t:{line}: in " not in last:
        yield f"    {found[0]}, and {last!r} before the byte"
    if not (template.startswith("{{", start) or start == 0 or template[:start].endswith("}}") or template[:start].rstrip().endswith("}}")):
        yield f"    {found[0]}: nothing begins there"


def main():
    if not harness.is_built(harness.PROGRAM, harness.CHECKER):
        return harness.closing(0, 1)
    tools.lack("jsonschema", "whether data of counterexamples conforms")
    tools.lack("yaml", "whether readers of YAML refuse an output")
    passed = failed = 0
    with tempfile.TemporaryDirectory(dir=harness.MEMORY) as folder:
        for part in (data_results, schema_results, refused_results, random_results):
            for name, wrong in part(folder):
                passed, failed = passed + (not wrong), failed + bool(wrong)
                if wrong:
                    print(f"FAILED {name}", *wrong, sep="\n")
    return harness.closing(passed, failed)


if __name__ == "__main__":
    sys.exit(main())
