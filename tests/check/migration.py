"""Tries what the documents and tmpl-check say to write in place of functions of other tools. Each template and pipeline that
migration/functions.json says, in the documents and by tmpl-check, is one that tmpl reads. What stands in backquotes and is neither is
listed there as `other`. Each name of a function is one that tmpl refuses, of which tmpl-check says what serves. What it says to write gives,
over data, what the function gives in its own tool, worked out by hand (`tries`): each piece in backquotes stands in a template that is rendered.
In tests/rows/authors are templates as people write them who know other tools (`first.tmpl`), the places of the actions that are no templates
here (`mistakes`), and what they become where each is written as tmpl-check says (`second.tmpl`), which has to give what the other tool gives
(`wanted`). TMPL=PATH and TMPL_CHECK=PATH name other builds."""
import itertools
import json
import os
import re
import subprocess
import sys
import tempfile

from tests.lib import harness

CODE = re.compile(r"`` (.+?) ``|``(.+?)``|`([^`]+)`")
# what a template that is quoted there may use, and the parts that it opens
QUOTES = [f"{harness.TOP}/examples/quotes/{it}.tmpl" for it in ("quotes", "data", "texts")]
BEFORE = '{{$last := ""}}{{$i := 0}}{{$x := 0}}{{$n := ""}}{{$found := false}}{{$odd := false}}'


def spans(text):
    return [next(filter(None, it)).replace("\\|", "|") for it in CODE.findall(text)]


def is_read(span, folder):
    """Whether a span is read as a template, or as an action, with as many ends as it wants."""
    text = (span if "{{" in span else "{{" + span + "}}").replace("P}}", ".p}}").replace("..", "")
    path = os.path.join(folder, "m")
    for front, ends in itertools.product(("", BEFORE, "{{if .x}}"), range(3)):
        with open(path, "w", encoding="utf-8") as it:
            it.write(front + text + "{{end}}" * ends)
        if subprocess.run([harness.PROGRAM, "--print", path], capture_output=True, timeout=harness.SECONDS, check=False).returncode == 0:
            return True
    return False


def stands_in(span, template):
    """Whether a template has a piece of code, in which P may be any pipeline."""
    return re.search(re.escape(span).replace("P", ".+?") if "P}}" in span else re.escape(span), template) is not None


def rendered(one, folder):
    """What a template gives over its data: the output and the error line, by the strictest mode, with the templates for quoting."""
    for name, text in ("m", one["template"]), ("d", json.dumps(one["data"])):
        with open(os.path.join(folder, name), "w", encoding="utf-8") as it:
            it.write(text)
    words = [harness.PROGRAM, "--missingkey", "error", "--data", "d", "m", *QUOTES]
    ran = subprocess.run(words, cwd=folder, capture_output=True, timeout=harness.SECONDS, check=False)
    return ran.stdout.decode(), ran.stderr.decode().rstrip("\n")


def check_author(name, hold):
    """A template of an author: its mistakes are found, and as tmpl-check says it gives what is wanted."""
    folder = f"{harness.TOP}/tests/rows/authors/{name}"
    told = subprocess.run([harness.CHECKER, "first.tmpl"], cwd=folder, capture_output=True, timeout=harness.SECONDS, check=False)
    places = [":".join(line.split(":")[1:3]) for line in told.stdout.decode().splitlines() if ": error: " in line]
    hold(f"{name}: mistakes at {places}", told.returncode == 1 and places == read(f"{folder}/mistakes").split())
    lines = read(f"{folder}/first.tmpl").splitlines()
    for place in places:
        line, column = map(int, place.split(":"))
        hold(f"{name}: no action at {place}", lines[line - 1][column - 1:].startswith("{{"))
    words = [harness.PROGRAM, "--missingkey", "error", "--data", "data.json", "second.tmpl", *QUOTES]
    ran = subprocess.run(words, cwd=folder, capture_output=True, timeout=harness.SECONDS, check=False)
    hold(f"{name}: gives {ran}", (ran.returncode, ran.stdout.decode(), ran.stderr) == (0, read(f"{folder}/wanted"), b""))


def read(path):
    with open(path, encoding="utf-8") as it:
        return it.read()


def main():
    with open(f"{harness.TOP}/migration/functions.json", encoding="utf-8") as it:
        tools = json.load(it)
    passed = failed = 0
    with tempfile.TemporaryDirectory(dir=harness.MEMORY) as folder:
        def hold(what, good):
            nonlocal passed, failed
            passed, failed = passed + good, failed + (not good)
            if not good:
                print(what)

        for name in sorted(os.listdir(f"{harness.TOP}/tests/rows/authors")):
            check_author(name, hold)
        for title, rows in tools.items():
            for row in rows:
                other = row.get("other", [])
                for span in spans(row["here"]):
                    if span not in other:
                        hold(f"{title}: {row['there']}: {span!r} is not read", is_read(span, folder))
                for span in other:
                    hold(f"{title}: {row['there']}: {span!r} is not there", span in spans(row["here"]))
                for it in row["says"]:
                    for span in spans(it["say"]):
                        hold(f"{title}: what is said of {it['names']}: {span!r} is not read", is_read(span, folder))
                    tries = it.get("tries", [])
                    for span in spans(it["say"]):
                        hold(f"{title}: what is said of {it['names']}: {span!r} is not tried", any(stands_in(span, one["template"]) for one in tries))
                    for one in tries:
                        gives = rendered(one, folder)
                        hold(f"{title}: {it['names']}: {one['template']} gives {gives}", gives == (one["gives"], one.get("line", "")))
                    for name in it["names"].split():
                        line = f'm:1:1: error: action not understood: no function "{name}": {it["say"].replace("`", "")}\n'
                        # a name that stands for a control opens one
                        control = "if" if "{{if" in it["say"] else "range"
                        open_at_end = f'm:1:{len(name) + 5}: error: file ends inside a control: "{control}" of line 1 is open at the end of the file\n'
                        with open(os.path.join(folder, "m"), "w", encoding="utf-8") as file:
                            file.write("{{" + name + "}}")
                        told = subprocess.run([harness.CHECKER, "m"], cwd=folder, capture_output=True, timeout=harness.SECONDS, check=False)
                        hold(f"{title}: {name}: {told.stdout!r}", told.returncode == 1 and told.stdout.decode() in (line, line + open_at_end))
    return harness.closing(passed, failed)


if __name__ == "__main__":
    sys.exit(main())
