"""Runs tmpl-check over files and data whose findings were worked out by hand, and compares it with tmpl on random files.

The first error must be at the line and of the reason that tmpl tells, and there must be one exactly where tmpl refuses the file. What is
put out as SARIF is held against the rules of its specification, which `sarif_faults` names by their sections.
"""
import json
import os
import random
import re
import subprocess
import sys
import tempfile
import urllib.parse

from tests.lib import tools
from tests.lib.harness import CHECKER as CHECK
from tests.lib.harness import PROGRAM as TMPL
from tests.lib.harness import ROWS as NAMED
from tests.lib.harness import SECONDS, build_shim, closing, is_built
from tests.rows.problem_rows import DATA, FAILING, FAILING_DATA, FILES, HIDDEN, LENGTH, ROWS, RUN_DATA, RUNS

LINE = re.compile(r"(.+?):([1-9][0-9]*):([1-9][0-9]*): (error|warning): (.*)")

# what actions are drawn of: openings, parts, ends, good actions, and mistakes of each kind
LEAST_REFUSED = 700  # allocations of four runs
PIECES = ["{{if .a}}", "{{with $x := .a}}", "{{range $i, $e := .l}}", "{{else}}", "{{else if .b}}", "{{else with .b}}", "{{end}}", "{{end}}",
          "{{end}}", '{{define "t"}}', '{{block "b" .}}', '{{template "t" .}}', "{{break}}", "{{continue}}", "{{.a}}", "{{$x}}", "{{$x := 1}}",
          "{{$e}}", "{{$i = 2}}", "{{print 1 | len}}", "text", " \n ", "{{- .a -}}", "{{/* c */}}"]
FLAWLESS = len(PIECES)
PIECES += ["{{add 1}}", "{{1.5}}", "{{.a == .b}}", "{{if nofun}}", "{{end x}}", "{{else x}}", "{{", "}}", "{{.a !}}", '{{"a}}', "{{(.a}}",
           "{{" + "(" * 101 + "1" + ")" * 101 + "}}", "é"]


def run(program, words, folder, env=None):
    """The status, output and errors of a run."""
    ended = subprocess.run([program, *words], cwd=folder, capture_output=True, timeout=SECONDS, env=env, check=False)
    return ended.returncode, ended.stdout, ended.stderr


def write(folder, name, content):
    with open(os.path.join(folder, name), "wb") as file:
        file.write(content if isinstance(content, bytes) else content.encode())


def hold(title, what, expected, came, failures):
    if expected != came:
        failures.append(f"{title}: {what}\n  expected {expected!r}\n  came     {came!r}")


def named(rows):
    """Those of these rows whose titles hold what was asked for by -k."""
    return [it for it in rows if NAMED in it[0]]


def rows(folder, failures):
    """Each row by its lines and its status, and as JSON and SARIF."""
    for title, text, lines in named(ROWS + FILES):
        write(folder, "m", text)
        status, out, err = run(CHECK, ["m"], folder)
        hold(title, "lines", "".join(f"m:{line}\n" for line in lines), out.decode(), failures)
        hold(title, "status and errors", (int(any(" error: " in f" {line}" for line in lines)), b""), (status, err), failures)
        forms(folder, ["m"], title, lines, failures)
        if not all(" warning: " in f" {line}" for line in lines):
            same_refusal(folder, title, failures)
    for title, text, lines in named(DATA):
        write(folder, "m", "")
        write(folder, "d", text)
        status, out, err = run(CHECK, ["--data", "d", "m"], folder)
        hold(f"data, {title}", "lines", "".join(f"d:{line}\n" for line in lines), out.decode(), failures)
        wrong = any(" error: " in f" {line}" for line in lines)
        hold(f"data, {title}", "status and errors", (int(wrong), b""), (status, err), failures)
        hold(f"data, {title}", "status of tmpl", 5 * wrong, run(TMPL, ["--data", "d", "m"], folder)[0], failures)


def hidden(folder, failures):
    """No name makes a line that looks like a finding, nor does that of a file; JSON has it as it is."""
    for title, text, lines, texts in HIDDEN:
        for file, shown in (("m", "m"), ("m\nm:1:1: error: no", "m\\nm:1:1: error: no")):
            write(folder, file, text)
            status, out, err = run(CHECK, [file], folder)
            hold(title, f"lines of {shown}", (0, "".join(f"{shown}:{line}\n" for line in lines), b""), (status, out.decode(), err), failures)
            out = run(CHECK, ["--format", "json", file], folder)[1]
            hold(title, f"JSON of {shown}", [(file, it) for it in texts], [(it["file"], it["text"]) for it in json.loads(out)["problems"]], failures)


def failing(folder, failures):
    """Commands that always fail: what is said of each, that tmpl fails over data, and that what is written instead does not."""
    write(folder, "d", json.dumps(FAILING_DATA))
    for title, command, said, cure in named(FAILING):
        write(folder, "m", "{{" + command + "}}")
        said += f": write {cure}" * bool(cure)
        out = run(CHECK, ["m"], folder)[1].decode()
        hold(title, "line", f"m:1:1: warning: always fails: {said}\n", out, failures)
        hold(title, "statuses of tmpl-check", (0, 1), (run(CHECK, ["m"], folder)[0], run(CHECK, ["--strict", "m"], folder)[0]), failures)
        hold(title, "status of tmpl", 1, run(TMPL, ["--data", "d", "m"], folder)[0], failures)
        if cure:
            write(folder, "m", "{{" + cure + "}}")
            hold(title, "what it says to write, checked", b"", run(CHECK, ["m"], folder)[1], failures)
            hold(title, "what it says to write, rendered", 0, run(TMPL, ["--data", "d", "m"], folder)[0], failures)


def runs(folder, failures):
    """Runs over data: what is found of each, that tmpl fails with that message where an error is found, and that nothing is found beside
    other errors, a file that is missing, or a schema."""
    write(folder, "d", json.dumps(RUN_DATA))
    for title, template, mode, lines in named(RUNS):
        write(folder, "m", template)
        given = ["--missingkey", mode, "--data", "d"]
        status, out, err = run(CHECK, [*given, "m"], folder)
        wrong = any(": error: " in line for line in lines)
        hold(title, "lines", "".join(f"m:{line}\n" for line in lines), out.decode(), failures)
        hold(title, "status and errors", (int(wrong), b""), (status, err), failures)
        forms(folder, [*given, "m"], title, lines, failures)
        status, _, err = run(TMPL, [*given, "m"], folder)
        if any(": warning: " in line for line in lines):
            continue
        hold(title, "status of tmpl", int(wrong), status, failures)
        if wrong:
            said = err.decode().rstrip("\n").split(": ")
            place, told = lines[0].partition(": error: ")[::2]
            hold(title, "line of tmpl", place.split(":")[0], said[1].split(":")[1], failures)
            hold(title, "message of tmpl", True, told == ": ".join(said[3:]) or told.startswith(": ".join(said[3:]) + ": "), failures)
    write(folder, "m", "{{len .ports}}")
    write(folder, "n", "{{name}}")
    write(folder, "s", "{}")
    for words in (["m", "n"], ["m", "nosuch"], ["--schema", "s", "m"]):
        out = run(CHECK, ["--data", "d", *words], folder)[1].decode()
        hold(" ".join(words), "nothing of the run", False, LENGTH in out, failures)
    hold("no data", "lines", b"", run(CHECK, ["m"], folder)[1], failures)


def forms(folder, words, title, lines, failures):
    """JSON and SARIF say what the lines say."""
    status, out, _ = run(CHECK, ["--format", "json", *words], folder)
    told = [f"{it['line']}:{it['column']}: {it['level']}: {it['text']}" for it in json.loads(out)["problems"]]
    hold(title, "JSON", lines, told, failures)
    status, out, _ = run(CHECK, ["--format", "sarif", *words], folder)
    log = json.loads(out)
    hold(title, "faults of SARIF", [], list(sarif_faults(log)), failures)
    told = []
    for it in log["runs"][0]["results"]:
        (place,) = it["locations"]
        region = place["physicalLocation"]["region"]
        told.append(f"{region['startLine']}:{region['startColumn']}: {it['level']}: {it['message']['text']}")
    hold(title, "SARIF", lines, told, failures)


# what an object of SARIF 2.1.0 may have that tmpl-check puts out, by the section of its specification: the properties that it must have, and
# those of the others that are used here
OBJECTS = {
    "3.13 sarifLog": ({"version", "runs"}, {"$schema"}),
    "3.14 run": ({"tool"}, {"results", "columnKind"}),
    "3.18 tool": ({"driver"}, set()),
    "3.19 toolComponent": ({"name"}, {"rules"}),
    "3.49 reportingDescriptor": ({"id"}, {"shortDescription"}),
    "3.12 multiformatMessageString": ({"text"}, set()),
    "3.27 result": ({"message"}, {"ruleId", "level", "locations", "relatedLocations"}),
    "3.11 message": ({"text"}, set()),
    "3.28 location": (set(), {"physicalLocation", "message"}),
    "3.29 physicalLocation": ({"artifactLocation"}, {"region"}),
    "3.4 artifactLocation": ({"uri"}, set()),
    "3.30 region": ({"startLine", "startColumn"}, set()),
}
# RFC 3986: a reference of these characters alone, and `%` only before two hexadecimal digits
URI = re.compile(r"(?:[A-Za-z0-9\-._~:/?#\[\]@!$&'()*+,;=]|%[0-9A-Fa-f]{2})+")


def sarif_faults(log):
    """What is wrong with a log, by the sections of the specification of SARIF 2.1.0."""

    def shaped(section, it):
        must, may = OBJECTS[section]
        if not isinstance(it, dict) or not must <= set(it) <= must | may:
            yield f"{section}: {it!r}"

    def text(section, it):
        yield from shaped(section, it)
        if not isinstance(it.get("text"), str) or not it["text"]:
            yield f"{section}.text: {it!r}"

    yield from shaped("3.13 sarifLog", log)
    if log["version"] != "2.1.0":
        yield f"3.13.2 version: {log['version']!r}"
    for each in log["runs"]:
        yield from shaped("3.14 run", each)
        yield from shaped("3.18 tool", each["tool"])
        driver = each["tool"]["driver"]
        yield from shaped("3.19 toolComponent", driver)
        if each.get("columnKind") != "unicodeCodePoints":  # else columns would count units of UTF-16
            yield f"3.14.17 columnKind: {each.get('columnKind')!r}"
        ids = [rule["id"] for rule in driver["rules"]]
        if len(set(ids)) != len(ids):
            yield f"3.19.23 rules: {ids!r}"
        for rule in driver["rules"]:
            yield from shaped("3.49 reportingDescriptor", rule)
            yield from text("3.12 multiformatMessageString", rule["shortDescription"])
        for result in each["results"]:
            yield from shaped("3.27 result", result)
            yield from text("3.11 message", result["message"])
            if result["ruleId"] not in ids:
                yield f"3.27.5 ruleId: {result['ruleId']!r}"
            if result["level"] not in ("none", "note", "warning", "error"):
                yield f"3.27.10 level: {result['level']!r}"
            for place in result.get("relatedLocations", []):
                yield from text("3.11 message", place["message"])
            for place in result["locations"] + result.get("relatedLocations", []):
                yield from shaped("3.28 location", place)
                yield from shaped("3.29 physicalLocation", place["physicalLocation"])
                file = place["physicalLocation"]["artifactLocation"]
                yield from shaped("3.4 artifactLocation", file)
                if not URI.fullmatch(file["uri"]):
                    yield f"3.4.3 uri: {file['uri']!r}"
                region = place["physicalLocation"]["region"]
                yield from shaped("3.30 region", region)
                for name in ("startLine", "startColumn"):
                    if not isinstance(region[name], int) or region[name] < 1:
                        yield f"3.30.5, 3.30.6 {name}: {region[name]!r}"


def uris(folder, failures):
    """The names of files as URIs: each gives its name again, relative to the folder or from the root on."""
    for name, uri in [("m", "m"), ("a b.tmpl", "a%20b.tmpl"), ("50%.tmpl", "50%25.tmpl"), ("é.tmpl", "%C3%A9.tmpl"), ("c:d?#[].tmpl", "c%3Ad%3F%23%5B%5D.tmpl"),
                      ("sub/x-1_2~3.tmpl", "sub/x-1_2~3.tmpl"), (f"{folder}/m", "file://" + urllib.parse.quote(f"{folder}/m"))]:
        os.makedirs(os.path.dirname(os.path.join(folder, name)), exist_ok=True)
        write(folder, name, "{{name}}")
        log = json.loads(run(CHECK, ["--format", "sarif", name], folder)[1])
        hold(name, "faults of SARIF", [], list(sarif_faults(log)), failures)
        (result,) = log["runs"][0]["results"]
        told = result["locations"][0]["physicalLocation"]["artifactLocation"]["uri"]
        hold(name, "URI", uri, told, failures)
        hold(name, "name of the URI", name, urllib.parse.unquote(told.removeprefix("file://")), failures)


def notes(folder, failures):
    """A note is a line after that of its error, a member in JSON and a related location in SARIF."""
    write(folder, "m", "{{.a}}")
    write(folder, "s", '{"type": "object", "properties": {"a": true}}')
    said = 'may fail: .a may be absent: no "required" at s:1'
    note = 'fails for {}: no entry for key "a"'
    given = ["--schema", "s", "--missingkey", "error"]
    out = run(CHECK, [*given, "--no-counterexamples", "m"], folder)[1].decode()
    hold("no note", "lines", f"m:1:1: error: {said}\n", out, failures)
    out = run(CHECK, [*given, "m"], folder)[1].decode()
    hold("note", "lines", f"m:1:1: error: {said}\nm:1:1: note: {note}\n", out, failures)
    (told,) = json.loads(run(CHECK, [*given, "--format", "json", "m"], folder)[1])["problems"]
    hold("note", "JSON", (said, note), (told["text"], told["note"]), failures)
    log = json.loads(run(CHECK, [*given, "--format", "sarif", "m"], folder)[1])
    hold("note", "faults of SARIF", [], list(sarif_faults(log)), failures)
    (result,) = log["runs"][0]["results"]
    (related,) = result["relatedLocations"]
    hold("note", "SARIF", (said, note), (result["message"]["text"], related["message"]["text"]), failures)
    hold("note", "its place", result["locations"][0]["physicalLocation"], related["physicalLocation"], failures)


def version(folder, failures):
    """`--version` says what `make install` writes into the program, and in a checkout that nothing is written there."""
    untold = b"tmpl-check of a checkout: make install writes into it which build it is\n"
    hold("--version", "in a checkout", (0, untold, b""), run(CHECK, ["--version"], folder), failures)
    if tools.lack("objcopy", "a build that is written into a copy of the program"):
        return
    for given, told in [("tmpl 0~git1 proved by the logic 2 of kit-3\n", b"tmpl-check of tmpl 0~git1 proved by the logic 2 of kit-3\n"),
                        ("x" * 5000, b"tmpl-check of " + b"x" * 5000 + b"\n"), (b"\xff", untold)]:
        write(folder, "note", given)
        copy = os.path.join(folder, "copy")
        subprocess.run(["objcopy", "--add-section", f".tmpl.build={folder}/note", CHECK, copy], check=True)
        hold("--version", f"with {given[:20]!r} written", (0, told, b""), run(copy, ["--version"], folder), failures)


def same_refusal(folder, title, failures):
    """The first error of tmpl-check is the refusal of tmpl; says whether there is one."""
    status, _, err = run(TMPL, ["--print", "m"], folder)
    _, out, _ = run(CHECK, ["m"], folder)
    errors = [found for found in map(LINE.fullmatch, out.decode().splitlines()) if found and found[4] == "error"]
    if status == 0:
        hold(title, "errors where tmpl accepts", [], [found[0] for found in errors], failures)
        return False
    first = errors[0] if errors else None
    told = first and f"tmpl: m:{first[2]}: {first[5].split(': ')[0]}\n"
    hold(title, "first error beside tmpl", err.decode(), told, failures)
    # what is said of it is found apart, by what begins at the same place
    hold(title, "what is said of the first error", True, bool(first) and ": " in first[5], failures)
    # that more are left out stands at the front of the file
    places = [(int(found[2]), int(found[3])) for found in errors if not found[5].startswith("too many errors")]
    hold(title, "each place once and in order", sorted(set(places)), places, failures)
    return True


def draws(folder, count, seed, failures):
    """Random files."""
    source = random.Random(seed)
    refused = 0
    for number in range(count):
        pieces = PIECES[: FLAWLESS if number % 3 else len(PIECES)]
        text = "".join(source.choice(pieces) for _ in range(source.randrange(1, 14 if number % 2 else 5)))
        write(folder, "m", text)
        before = len(failures)
        refused += same_refusal(folder, f"draw {number}", failures)
        if len(failures) > before:
            failures[-1] += f"\n  file     {text!r}"
    print(f"draws: {count}, of which {refused} are refused")


def words(folder, failures):
    """Words, files that can't be read, and several files."""
    write(folder, "m", "{{name}}")
    write(folder, "n", '{{define "t"}}{{end}}{{template "t"}}')
    for given, wanted in [(["--help"], 0), (["--version"], 0), ([], 2), (["--nosuch", "m"], 2), (["--format", "xml", "m"], 2),
                          (["nosuch"], 3), (["m"], 1), (["n"], 0), (["n", "nosuch", "m"], 3), (["--data", "nosuch", "n"], 3)]:
        hold(" ".join(given), "status", wanted, run(CHECK, given, folder)[0], failures)
    for given, wanted in [(["--nosuch", "m"], 2), ([], 2)]:
        with open("/dev/full", "wb") as full:
            ended = subprocess.run([CHECK, *given], cwd=folder, stdout=subprocess.DEVNULL, stderr=full, timeout=SECONDS, check=False)
        hold(" ".join(given), "status where errors cannot be written", wanted, ended.returncode, failures)
    hold("a folder", "error line", b"tmpl-check: .: can't be read: is a directory\n", run(CHECK, ["."], folder)[2], failures)
    write(folder, "over", '{{template "t"}}')
    hold("a template of another file", "lines", b"", run(CHECK, ["over", "n"], folder)[1], failures)
    hold("a name that is not there", "lines", b'over:1:1: warning: no file defines the template "x" of --name\n',
         run(CHECK, ["--name", "x", "over", "n"], folder)[1], failures)
    write(folder, "i", '{"a": 1}')
    for given, wanted in [(["--infer", "i"], 0), (["--infer", "i", "m"], 1), (["--infer", "i", "nosuch"], 3), (["--infer"], 2),
                          (["--infer", "--data", "i", "i"], 2), (["--infer", "--schema", "i", "i"], 2), (["--infer", "--name", "i", "i"], 2),
                          (["--infer", "--missingkey", "zero", "i"], 2), (["--infer", "--stop", "i", "i"], 2), (["--infer", "--format", "json", "i"], 0)]:
        hold(" ".join(given), "status", wanted, run(CHECK, given, folder)[0], failures)
    for given, wanted in [(["--strict", "n"], 0), (["--strict", "over"], 1), (["--library", "n", "over"], 0), (["--library", "m", "over"], 1),
                          (["--library", "nosuch", "over"], 3), (["--infer", "--strict", "i"], 2), (["--infer", "--library", "n", "i"], 2)]:
        hold(" ".join(given), "status", wanted, run(CHECK, given, folder)[0], failures)
    write(folder, "lib", '{{define "t"}}{{template "gone"}}{{$x := len 5}}}}{{end}}')
    hold("a library", "lines", b"", run(CHECK, ["--library", "lib", "--name", "over", "over"], folder)[1], failures)
    write(folder, "unused", '{{define "u"}}{{end}}')
    hold("a definition that nothing calls", "lines", b'unused:1:1: warning: the template "u" is never called\n',
         run(CHECK, ["--name", "n", "n", "unused"], folder)[1], failures)


def refused_memory(folder, failures):
    """Each allocation of some runs refused in turn: status 7 and its line, or what came without."""
    shim = os.path.join(folder, "fail_alloc.so")
    build_shim("fail_alloc.c", shim)
    write(folder, "m", '{{if .a == 1}}{{$x := nofun}}{{.s.0}}{{template "t"}}{{end}}{{define "u"}}{{$q}}{{end}} }}')
    write(folder, "d", '{"a": [1.5, {"b": 1, "b": 2}]}')
    write(folder, "t", "{{.a}}")
    write(folder, "s", '{"type": "object", "properties": {"a": {"type": "string"}}}')
    write(folder, "i", '[{"a": 1, "b": [null]}, {"a": "x"}]')
    total = 0
    for given in (["--data", "d", "m"], ["--format", "sarif", "--name", "u", "m"], ["--schema", "s", "t"], ["--infer", "i"]):
        usual = run(CHECK, given, folder)
        for number in range(1, 20000):
            told, tells = os.pipe()
            env = {**os.environ, "LD_PRELOAD": shim, "FAIL_ALLOC": str(number), "FAIL_FD": str(tells)}
            how = {"cwd": folder, "capture_output": True, "timeout": SECONDS, "env": env, "pass_fds": (tells,), "check": False}
            ended = subprocess.run([CHECK, *given], **how)
            os.close(tells)
            was_there = bool(os.read(told, 1))
            os.close(told)
            came = (ended.returncode, ended.stdout, ended.stderr)
            if came != usual:
                hold(f"allocation {number} of {given}", "refused", (7, b"", b"tmpl-check: out of memory\n"), came, failures)
            if not was_there:
                break
            total += 1
    hold("allocations refused", f"at least {LEAST_REFUSED}", True, total >= LEAST_REFUSED, failures)
    print(f"allocations refused: {total}")


def main():
    count = int(sys.argv[1]) if len(sys.argv) > 1 else 1500
    seed = int(sys.argv[2]) if len(sys.argv) > 2 else 56
    if not is_built(TMPL, CHECK):
        return closing(0, 1)
    failures = []
    with tempfile.TemporaryDirectory(dir="/dev/shm" if os.access("/dev/shm", os.W_OK) else None) as folder:
        rows(folder, failures)
        failing(folder, failures)
        runs(folder, failures)
        if NAMED:
            print(*failures, sep="\n", end="\n" * bool(failures))
            return closing(len(named(ROWS + FILES + DATA + FAILING + RUNS)) - len(failures), len(failures))
        hidden(folder, failures)
        words(folder, failures)
        uris(folder, failures)
        notes(folder, failures)
        version(folder, failures)
        refused_memory(folder, failures)
        draws(folder, count, seed, failures)
    for failure in failures[:20]:
        print(failure)
    passed = len(ROWS) + len(FILES) + len(DATA) + len(FAILING) + len(RUNS) + 4 * len(HIDDEN) + count - len(failures)
    return closing(max(passed, 0), len(failures))


if __name__ == "__main__":
    sys.exit(main())
