"""Holds what is made of documents and lists against them: man pages, completions, the usage line, the graph of the crates, the picture of a
run and the sentence over the plots. Each must be what its script makes; `man` must find nothing to warn of, where it is there; the program
must print the usage line of docs/COMMAND.md; the defaults and the limits of the definitions must be those that the documents say; and each
shell that is there must offer the options of that line, the words of an option that takes one of several, and files. TMPL=PATH names another
build."""
import json
import os
import re
import shlex
import subprocess
import sys
import tempfile

from tests.fault import calls
from tests.lib import harness, programs, tools
from tests.oracle import meaning, table

sys.path[:0] = [f"{harness.TOP}/completions", f"{harness.TOP}/packaging"]
import make as completions
import pages as packaged

FILES = ["a.tmpl", "b.json"]  # in the folder in which the shells complete
BASH = """
source "$1"; COMP_WORDS=(tmpl "${@:2}"); COMP_CWORD=$#; COMP_CWORD=$((COMP_CWORD - 1)); _tmpl; printf '%s\\n' "${COMPREPLY[@]}"
"""
# zsh offers by a terminal alone, so what `_arguments` is given is looked at
ZSH = """
autoload -U compinit; _arguments() { print -rl -- "$@" }; source "$1"
"""


def output(*words, **how):
    ran = subprocess.run(words, stdin=subprocess.DEVNULL, stdout=subprocess.PIPE, stderr=subprocess.STDOUT, **how)
    return ran.returncode, ran.stdout.decode(errors="replace")


def made():
    for folder in ("man", "completions", "migration"):
        yield f"what {folder}/make.py makes", (0, ""), output(sys.executable, f"{harness.TOP}/{folder}/make.py", "--check")
    yield "what packaging/picture.py draws", (0, ""), output(sys.executable, f"{harness.TOP}/packaging/picture.py", harness.CHECKER, "--check")
    yield "what tests/bench/plots.py writes", (0, ""), output(sys.executable, "-m", "tests.bench.plots", "--check", cwd=harness.TOP)
    yield "docs/crates.svg", (0, ""), output(sys.executable, f"{harness.TOP}/packaging/graph.py", "--check")


NUMBERED = (
    ("bindings/rust/Cargo.toml", r'^version = "(.*)"$'), ("bindings/javascript/package.json", r'"version": "(.*)"'),
    ("bindings/python/tmpl.py", r'^__version__ = "(.*)"$'),
)


def versions():
    """The number of the version, which bindings have too."""
    for path, pattern in NUMBERED:
        yield f"the version in {path}", packaged.number(), re.search(pattern, programs.read(f"{harness.TOP}/{path}"), re.MULTILINE)[1]


def usage():
    wanted = (0, f"usage: {completions.usage()}\n")
    yield "the usage line", wanted, output(harness.PROGRAM, "--help")


# the definitions that have numbers of options and limits, and how each has them
NUMBERS = {
    "crates/tmpl_tool/specs/Words.antt": {
        "depth": (r"depth_limit = number_in (\d+) (\d+) (\d+) ", ["default", "least", "most"]),
        "steps": (r"step_limit = number_in (\d+) (\d+) (\d+) ", ["default", "least", "most"]),
        "depth, by clap": (r'codes "depth"\) \(vp.Signed \(pos (\d+)\) \(pos (\d+)\)\)', ["least", "most"]),
        "steps, by clap": (r'codes "steps"\) \(vp.Unsigned (\d+) (\d+)\)', ["least", "most"]),
    },
    "crates/tmpl_c/specs/Passed.antt": {
        "depth": (r"depth_limit = limit (\d+) (\d+) s.depth", ["default", "most"]),
        "steps": (r"step_limit = limit (\d+) (\d+) s.steps", ["default", "most"]),
    },
}


def told(option):
    """The default, the least and the most number of an option, as docs/COMMAND.md has them."""
    with open(f"{harness.TOP}/docs/COMMAND.md", encoding="utf-8") as it:
        row = re.search(rf"^\| `--{option} N` \|.* (\d+) to (\d+)\b.*\| (\d+) \|$", it.read(), re.MULTILINE)
    return {"least": row[1], "most": row[2], "default": row[3]}


def numbers():
    """A number that were changed in a definition and in the code alike would be proved, and no row has this many steps."""
    for path, its in NUMBERS.items():
        with open(f"{harness.TOP}/{path}", encoding="utf-8") as it:
            text = it.read()
        for name, (pattern, names) in its.items():
            row = told(name.partition(",")[0])
            yield f"{name} in {path}", [tuple(row[it] for it in names)], [it if isinstance(it, tuple) else (it,) for it in re.findall(pattern, text)]


def listed(path, pattern, part=r"\w+"):
    """The names in the first place of a file that the pattern finds."""
    return [it.lower() for it in re.findall(part, re.search(pattern, programs.read(f"{harness.TOP}/{path}"), re.DOTALL)[1])]


def functions():
    """The table of docs/LANGUAGE.md is the one list of functions: every other has the same names, and the code the same numbers of arguments."""
    names = table.NAMES
    func, spec = "crates/tmpl_funcs/src/func.rt", "crates/tmpl_funcs/specs/Func.antt"
    yield f"the variants in {func}", names, listed(func, r"pub enum Func \{(.*?)\}")
    yield f"the list in {func}", names, listed(func, r"const FUNCS: .*? = \[(.*?)\];", r"Func::(\w+)")
    code = programs.read(f"{harness.TOP}/{func}")
    rows = re.findall(r'Func::(\w+) => Row::new\("(\w+)", (\d+), (?:None|Some\((\d+)\))', code)
    wanted = [(name, name, least, most) for name, (least, most) in table.COUNTS.items()]
    yield f"the rows in {func}", wanted, [(it.lower(), name, int(least), int(most or table.MANY)) for it, name, least, most in rows]
    yield f"the rows in {spec}", names, listed(spec, r"\nrow_of (.*)", r'codes "(\w+)"')[: len(names)]
    computed = "crates/tmpl_grammar/specs/computed/Operand.antt"
    yield f"the list in {computed}", names, listed(computed, r"\n    (And ∷.*?) ∷ \[\]")
    places = "crates/tmpl_funcs/proofs/func/Func/named/Answers.antt"
    yield f"the places in {places}", names, listed(places, r"(.*)", r"\nplace (\w+) =")
    yield "what tests/oracle/meaning.py gives", sorted(names), sorted(meaning.GIVES)
    called = {it[0] for it in (*calls.MAKERS, *calls.OTHERS)}
    yield "the calls of tests/fault/calls.py", sorted(set(names) - {"and", "or"}), sorted(called)
    yield "functions that tests/fuzz/dictionary lacks", [], sorted(set(names) - set(listed("tests/fuzz/dictionary", "(.*)", r'\n"(\w+) "')))


def pages():
    if tools.lack("man", "the warnings of the man pages"):
        return
    for name in ("tmpl.1", "tmpl-check.1", "tmpl-language.7"):
        page = f"{harness.TOP}/man/{name}"
        ran = subprocess.run(
            ["man", "--warnings", "-E", "UTF-8", "-l", page],
            env={**os.environ, "LC_ALL": "C.UTF-8", "MANWIDTH": "80", "MANPAGER": "cat"},
            stdout=subprocess.DEVNULL,
            stderr=subprocess.PIPE,
        )
        yield f"the warnings of {name}", (0, b""), (ran.returncode, ran.stderr)


def offers():
    """Words that stand before the place, and what may be offered there."""
    options = completions.options()
    yield ["--"], [*options, "--help"]
    for name, takes in options.items():
        yield [name[:5]], [it for it in [*options, "--help"] if it.startswith(name[:5])]
        if takes:
            words = {"FILE": FILES, "default": []}.get(takes, takes.split("|") if "|" in takes else [])
            yield [name, ""], words
            yield [name, "=", ""], words
    yield ["--missingkey", "z"], ["zero"]
    yield [""], FILES
    yield ["--print", "a"], FILES[:1]
    yield ["--", "--data", ""], FILES
    yield ["--", "--"], []


def in_bash(folder):
    for words, wanted in offers():
        status, said = output("bash", "-c", BASH, "bash", f"{harness.TOP}/completions/tmpl.bash", *words, cwd=folder)
        yield f"bash after {words}", (0, sorted(wanted)), (status, sorted(said.split()))


def in_zsh(folder):
    status, said = output("zsh", "-f", "-c", ZSH, "zsh", f"{harness.TOP}/completions/_tmpl", cwd=folder)
    found = [line.partition("[")[0].rstrip("=") for line in said.splitlines() if line.startswith("--")]
    yield "zsh's options", (0, list(completions.options())), (status, found)
    for name, takes in completions.options().items():
        wanted = ":file:_files" if takes == "FILE" else f":({takes.replace('|', ' ')})" if "|" in takes else f":{takes}: " if takes else "]"
        its = [line for line in said.splitlines() if line.startswith(name)]
        yield f"what zsh offers for {name}", True, len(its) == 1 and its[0].endswith(wanted)


def in_fish(folder):
    script = f"source '{harness.TOP}/completions/tmpl.fish'; complete -C"
    for words, wanted in offers():
        if "=" in words or words[0] == "--" and len(words) > 1:
            continue  # fish has both ways by itself
        status, said = output("fish", "--no-config", "-c", f"{script} 'tmpl {' '.join(words)}'", cwd=folder)
        found = sorted(line.partition("\t")[0] for line in said.splitlines())
        yield f"fish after {words}", (0, sorted(wanted)), (status, found)


VIM = """set nocompatible
let &runtimepath = '%s/editors/vim,' . &runtimepath
let found = []
for name in ['bad.tmpl', 'good.tmpl']
  execute 'edit' name
  compiler tmpl
  make
  let found += map(getqflist(), {_, it -> bufname(it.bufnr) . ' ' . it.lnum . ' ' . it.text}) + ['line ' . line('.')]
endfor
cgetfile errors
let found += map(getqflist(), {_, it -> it.text})
call writefile(found, 'found')
qall!
"""


def editors(folder):
    """What they make of the line for a template that is refused."""
    files = {"bad.tmpl": "\n{{name}}\n\n", "good.tmpl": "x"}
    for name, text in files.items():
        with open(f"{folder}/{name}", "w", encoding="utf-8") as it:
            it.write(text)
    os.symlink(harness.CHECKER, f"{folder}/tmpl-check")
    detail = 'action not understood: no function "name": write .name'
    refused = f"bad.tmpl:2:1: error: {detail}\n"
    with open(f"{harness.TOP}/.pre-commit-hooks.yaml", encoding="utf-8") as it:
        entry = shlex.split(re.search(r"^  entry: (.*)$", it.read(), re.MULTILINE)[1])
    environment = {**os.environ, "PATH": f"{folder}:{os.environ['PATH']}"}
    for names, wanted in ((["good.tmpl"], (0, "")), (["bad.tmpl", "good.tmpl"], (1, refused))):
        yield f"the hook over {names}", wanted, output(*entry, *names, cwd=folder, env=environment)
    with open(f"{harness.TOP}/editors/problem-matcher.json", encoding="utf-8") as it:
        (pattern,) = json.load(it)["problemMatcher"][0]["pattern"]
    found = re.match(pattern["regexp"], refused.strip())
    parts = ("file", "line", "column", "severity", "message")
    yield "the problem matcher", ("bad.tmpl", "2", "1", "error", detail), found and tuple(found[pattern[it]] for it in parts)
    if not tools.lack("vim", "what it finds by :make"):
        with open(f"{folder}/errors", "w", encoding="utf-8") as it:
            it.write("tmpl-check: out of memory\n")  # a line without a place
        with open(f"{folder}/script", "w", encoding="utf-8") as it:
            it.write(VIM % harness.TOP)
        output("vim", "-e", "-s", "-u", "NONE", "-S", "script", cwd=folder, env=environment)
        with open(f"{folder}/found", encoding="utf-8") as it:
            yield "what Vim finds by :make", f"bad.tmpl 2 {detail}\nline 2\nline 1\n", it.read()


def main():
    if not harness.is_built():
        return harness.closing(0, 1)
    with tempfile.TemporaryDirectory() as folder:
        for name in FILES:
            with open(f"{folder}/{name}", "w", encoding="utf-8"):
                pass
        shells = {"bash": in_bash, "zsh": in_zsh, "fish": in_fish}
        cases = [*made(), *versions(), *usage(), *numbers(), *functions(), *pages()]
        for shell in shells:
            if not tools.lack(shell, "its completions"):
                cases += shells[shell](folder)
        cases += editors(folder)
    wrong = [[f"    got {got}", f"    wanted {wanted}"] if got != wanted else [] for _, wanted, got in cases]
    passed, failed, _ = harness.tally((name, 1, its) for (name, *_), its in zip(cases, wrong))
    return harness.closing(passed, failed)


if __name__ == "__main__":
    sys.exit(main())
