"""Follows the recipe of docs/CONTRIBUTING.md for a new function of templates, on a copy of the repository. It adds `starts`, by the changes
of tests/recipe/starts.edit, and has the copy's program, built without proofs, pass its rows, the tables and what holds the lists of
functions together.

Before the changes to the tests are made the tables have to fail, since nothing says what the function gives. In the file a change is a line
`old:` and a line `new:`, in which \\n stands for a newline; `old` occurs once in the file that the last line `file:` names."""
import os
import re
import shutil
import subprocess
import sys
import tempfile

from tests.lib import harness

RECIPE = f"{harness.TESTS}/recipe"
NOT_COPIED = shutil.ignore_patterns("out", ".git", "__pycache__", "target", "node_modules")
# what has to pass in the copy, and how the last line ends
PASSES = {"check.rendered": "4 passed, 0 failed", "check.tables": " passed, 0 failed"}
LISTS = "from tests.gate.generated import functions\nprint(*(name for name, wanted, got in functions() if wanted != got), sep='\\n')"


def changes():
    """Each change: its file, what stands there, and what comes in its place."""
    file = old = ""
    with open(f"{RECIPE}/starts.edit", encoding="utf-8") as it:
        for line in it:
            word, _, rest = line.rstrip("\n").partition(": ")
            text = rest.replace("\\n", "\n")
            if word == "file":
                file = rest
            elif word == "old":
                old = text
            else:
                yield file, old, text


def change(copy, wanted):
    """Makes those of the changes whose file is wanted; what is wrong with them."""
    wrong = []
    for file, old, new in changes():
        if wanted(file):
            with open(f"{copy}/{file}", encoding="utf-8") as it:
                text = it.read()
            if text.count(old) != 1:
                wrong.append(f"    {file} has {old!r} {text.count(old)} times")
            with open(f"{copy}/{file}", "w", encoding="utf-8") as it:
                it.write(text.replace(old, new, 1))
    return wrong


def run(copy, *words, **more):
    """The status and the output of a command in the copy."""
    environment = {name: value for name, value in os.environ.items() if not name.startswith("TMPL")}
    how = {"cwd": copy, "stdout": subprocess.PIPE, "stderr": subprocess.STDOUT, "text": True, "errors": "replace"}
    ran = subprocess.run([sys.executable, *words], env={**environment, **more}, **how)
    return ran.returncode, ran.stdout


def results(copy):
    """What follows the recipe, step by step."""
    yield "the changes to the code apply", 1, change(copy, lambda file: not file.startswith("tests/"))
    status, said = run(copy, "packaging/unproved.py", "tmpl")
    yield "the program is built", 1, [f"    {said[-2000:]}"] if status else []
    status, said = run(copy, "-m", "tests.check.tables")
    yield "the tables fail where nothing says what it gives", 1, [] if status else ["    they pass"]
    yield "the changes to the tests apply", 1, change(copy, lambda file: file.startswith("tests/"))
    shutil.copy(f"{RECIPE}/rows.json", f"{copy}/tests/rows/starts.json")
    for test, last in PASSES.items():
        status, said = run(copy, "-m", f"tests.{test}", **({"ROWS": "starts"} if test == "check.rendered" else {}))
        is_right = not status and re.search(re.escape(last) + "$", said.rstrip()) is not None
        yield test, 1, [] if is_right else [f"    {it}" for it in said.splitlines()[-12:]]
    status, said = run(copy, "-c", LISTS)
    yield "each list of functions has it", 1, [f"    {said}"] if status or said.strip() else []


def main():
    with tempfile.TemporaryDirectory() as room:
        copy = f"{room}/copy"
        shutil.copytree(harness.TOP, copy, ignore=NOT_COPIED, symlinks=True)
        passed, failed, _ = harness.tally(results(copy))
    return harness.closing(passed, failed)


if __name__ == "__main__":
    sys.exit(main())
