"""Calls the module of WebAssembly by its binding for JavaScript in Node, and tries the page. The rows that are calls of the C library, and
20,000 changed ones, go through the module, and through templates that are kept: the text and the line of a changed one must be those of the
library that is built here. web/binding.mjs tries the rest of the binding, and web/wide.c the arithmetic that is put in for the compiler.
The program of docs/EMBEDDING.md for JavaScript is run, the types are tried where tsc is, and the package is made twice, and must have the
same bytes. page.py tries the page, in Chromium.

What needs a program that is not installed is left out, with a line that says so."""
import re
import shutil
import sys
import tempfile

from tests.check.ports import ran, written
from tests.lib import chromium, harness, tools

WEB = f"{harness.TOP}/packaging/out/web"
OURS = f"{harness.TESTS}/web"
CHANGED = 20_000
PROGRAM = re.compile(r"^```js\n(.*?)^```\n+```text\n(.*?)^```$", re.MULTILINE | re.DOTALL)
TYPED = """
import { load, MemoryError, Problem, TemplateError, type Engine, type Options } from "rilphong";
const engine: Engine = await load(new URL("file:///tmpl.wasm"));
const options: Options = { missingKey: "error", steps: 5n, printed: true, output: 9, memory: 1 << 20 };
const text: string = engine.render({ m: "{{.}}" }, "m", [1], options);
const kept = engine.templates(new Map([["m", new Uint8Array()]]));
const bytes: Uint8Array = kept.renderBytes();
try { kept.add("m", text); } catch (error) {
    if (error instanceof TemplateError) console.log(error.status === 4, error.line.length, error.text.length, bytes, error.lineNumber);
    if (error instanceof MemoryError) console.log(error.line);
}
const problems: readonly Problem[] = engine.check({ m: text }, { most: 5, memory: 1 << 20 });
console.log(problems.map((it) => `${it.file}:${it.line}:${it.column} ${it.rule} ${it.text}`));
// @ts-expect-error
engine.render({ m: "" }, "m", 1, { memroy: 5 });
// @ts-expect-error
engine.render({ m: 5 });
// @ts-expect-error
kept.render("m", {}, { missingKey: "eror" });
"""


def counted(what, status, said):
    """What a program that ends by 'N passed, M failed' came to."""
    told = re.search(r"^(\d+) passed, 0 failed$", said, re.MULTILINE)
    return what, int(told[1]) if told else 1, [] if told and not status else [f"    {said}"]


def installed(folder):
    """The package, packed twice and installed by npm into a folder of its own: its path there, and what is wrong."""
    status, said = ran(sys.executable, f"{harness.TOP}/packaging/make.py", "npm")
    path = said.splitlines()[-1]
    if status:
        return path, [f"    {said}"]
    with open(path, "rb") as it:
        first = it.read()
    ran(sys.executable, f"{harness.TOP}/packaging/make.py", "npm")
    with open(path, "rb") as it:
        wrong = [] if it.read() == first else ["    it has other bytes when it is made again"]
    written(f"{folder}/package.json", '{"private": true}')
    words = ["--offline", "--no-audit", "--no-fund", "--ignore-scripts", f"--cache={folder}/cache"]
    status, said = ran("npm", "install", *words, path, cwd=folder)
    return f"{folder}/node_modules/rilphong", wrong + ([f"    {said}"] if status else [])


def copied(folder):
    """The same without npm: a folder with the files."""
    at = f"{folder}/node_modules/rilphong"
    shutil.copytree(f"{harness.TOP}/bindings/javascript", at)
    shutil.copy(f"{WEB}/tmpl.wasm", at)
    return at


def judge_calls(folder, at):
    from tests.check import asked  # it has the library built

    calls = asked.of_rows()
    rows = asked.write(f"{folder}/rows", calls)
    changes = asked.write(f"{folder}/changes", asked.of_changes(calls, CHANGED))
    print(f"{rows} rows and {changes} changed calls went through the module")
    what, count, wrong = counted("the module", *ran("node", f"{OURS}/asked.mjs", at, f"{folder}/rows", f"{folder}/changes"))
    few = rows < asked.LEAST or count < rows + changes
    return what, count, wrong + ["    these are too few"] * (few and not wrong)


def judge_wide(folder):
    program = f"{folder}/wide"
    status, said = ran("cc", "-O1", "-Wall", "-Wextra", "-Werror", f"{OURS}/wide.c", "-o", program)
    return counted("packaging/web/wide.c", *((status, said) if status else ran(program)))


def judge_program(folder):
    """The program of the document, beside the package."""
    with open(f"{harness.TOP}/docs/EMBEDDING.md", encoding="utf-8") as it:
        ((text, wanted),) = PROGRAM.findall(it.read())
    written(f"{folder}/hello.mjs", text)
    got = ran("node", f"{folder}/hello.mjs")
    return "docs/EMBEDDING.md: js", 1, [] if got == (0, wanted) else [f"    got {got}"]


def judge_types(folder):
    written(f"{folder}/typed.mts", TYPED)
    got = ran("tsc", "--noEmit", "--strict", "--module", "nodenext", "--target", "es2022", "--lib", "es2022,dom", "typed.mts", cwd=folder)
    return "the types", 1, [] if got == (0, "") else [f"    {got}"]


def parts(folder):
    """All results."""
    yield judge_wide(folder)
    if tools.lack("wasm-opt", "the module of WebAssembly, which is not made"):
        return
    status, said = ran("make", "-s", "-C", harness.TOP, "web", "lib")
    yield "make web", 1, [f"    {said}"] if status else []
    if status:
        return
    if not tools.lack("chromium", "the page", bool(chromium.found())):
        from tests.check import page

        yield from page.results(folder)
    if not tools.lack("node", "the module but in the page"):
        yield from of_node(folder)


def of_node(folder):
    """What Node makes of the package."""
    if not tools.lack("npm", "the package for it"):
        at, wrong = installed(folder)
        yield "the package for npm", 2, wrong
        if wrong:
            return
    else:
        at = copied(folder)
    yield counted("the binding", *ran("node", f"{OURS}/binding.mjs", at))
    yield counted("the binding, stopped", *ran("node", "--stack-size=100", f"{OURS}/trap.mjs", at))
    yield counted("the binding at the end of the stack", *ran("node", f"{OURS}/stack.mjs", at))
    yield judge_calls(folder, at)
    yield judge_program(folder)
    if not tools.lack("tsc", "the types"):
        yield judge_types(folder)


def main():
    with tempfile.TemporaryDirectory() as folder:
        passed, failed, _ = harness.tally(parts(folder))
    return harness.closing(passed, failed)


if __name__ == "__main__":
    sys.exit(main())
