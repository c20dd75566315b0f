"""Runs the commands of each document, compares the output with what it shows, and follows its links. It runs the blocks `console` and `sh`,
in order, those below one heading `##` in one folder and one shell. In a block `console` a line that begins with `$ ` is a command, one with
`> ` goes on with it, and the others are what it must put out, to its output and its errors. A block `sh` is pasted whole, and puts out what
the block `text` after it says, or nothing where no such block follows. The program is `tmpl`, and `$QUOTES` the folder of the templates for
quoting. TMPL=PATH names another build.

A comment before a block says what else is done with it; a block without one that is neither fails:

- `<!-- needs: NAME .. -->` names programs. Where one is not there all blocks of that heading are left out, and it says so.
- `<!-- save: NAME -->`: the block is a file, which is written under this name before what follows is run.
- `<!-- tried by: PATH -->`: this test tries it, and what a block `text` directly after it says that it puts out.
- `<!-- not run: WHY -->`: it is not run.

Links are followed too: in the repository, and as `make install` places the documents, each must name a file or a heading that is there.
`documents.py --list` lists the blocks, by document and line, with what is done with each, and runs nothing."""
import base64
import collections
import glob
import itertools
import os
import re
import shlex
import shutil
import subprocess
import sys
import tempfile

from tests.lib import harness, tools

LEAST = 80  # commands, where jq, yq and nginx are not there
LEAST_LINKS = 205
MARK = "\x1e"  # between what two commands put out
COMMENT = re.compile(r"<!-- (needs|save|tried by|not run): (.*) -->")
DOCUMENTS = ["*.md", "docs/*.md", "*/README.md", "*/*/README.md"]
# a block: its heading `##`, its line, its language, the comment before it as kind and text, and its own text
Block = collections.namedtuple("Block", "heading line language kind said text")


def documents():
    return [os.path.relpath(it, harness.TOP) for pattern in DOCUMENTS for it in sorted(glob.glob(f"{harness.TOP}/{pattern}"))]


def read(document):
    with open(f"{harness.TOP}/{document}", encoding="utf-8") as it:
        return it.read()


def blocks(document):
    """The blocks of a document: between fences, or indented by four spaces after a blank line outside of a list."""
    heading, kind, said, fence, is_list, held, at = "", "", "", None, False, [], 0
    for number, line in enumerate([*read(document).splitlines(), ""], 1):
        if fence is not None:
            if line.startswith("```"):
                yield Block(heading, at, fence, kind, said, "".join(f"{it}\n" for it in held))
                fence, kind, held = None, "", []
            else:
                held.append(line)
        elif line.startswith("```"):
            fence, at = line[3:], number
        elif line.startswith("    ") and not is_list:
            at = at if held else number
            held.append(line[4:])
        elif held:
            yield Block(heading, at, "", kind, said, "".join(f"{it}\n" for it in held))
            kind, held = "", []
        if fence is None and not held and line.strip():
            found = COMMENT.fullmatch(line)
            kind, said = found.groups() if found else ("", "")
            is_list = bool(re.match(r"- |[0-9]+\. ", line)) or is_list and line.startswith(" ")
            heading = line[3:] if line.startswith("## ") else heading


def handled(document):
    """The blocks of a document, each with how it is handled; "" where nothing says so."""
    before = ""
    for it in blocks(document):
        how = f"{it.kind} {it.said}".strip()
        if it.language in ("console", "sh") and it.kind in ("", "needs"):
            how = f"run {how}".strip()
        elif it.language == "text" and not it.kind and before.startswith("tried by"):
            how = before
        elif it.language == "text" and not it.kind and before.startswith("run"):
            how = "run, output"
        elif it.kind == "tried by" and not os.path.isfile(f"{harness.TOP}/{it.said}"):
            how = ""
        yield it, how
        before = how


def commands(block):
    """The commands of a block `console`, each with what it puts out."""
    found = []
    for line in block.splitlines():
        if line.startswith("$ "):
            found.append(([line[2:]], []))
        elif line.startswith("> ") or line == ">":
            found[-1][0].append(line[2:])
        else:
            found[-1][1].append(line)
    return [("\n".join(said), "\n".join(out)) for said, out in found]


def written(name, text):
    """The command that writes a file."""
    return f"base64 -d > {shlex.quote(name)} <<'END'\n{base64.b64encode(text.encode()).decode()}\nEND", ""


def steps(its):
    """What is run of the blocks of a heading: commands, each with what it puts out."""
    found = []
    for it, how in its:
        if it.kind == "save":
            found.append(written(it.said, it.text))
        elif how == "run, output":
            found[-1] = (found[-1][0], it.text)
        elif how.startswith("run"):
            found += commands(it.text) if it.language == "console" else [(it.text.rstrip("\n"), "")]
    return found


def sections(document):
    """The headings of a document with their commands, and what they need."""
    for heading, its in itertools.groupby(handled(document), lambda found: found[0].heading):
        its = list(its)
        needed = [name for it, _ in its if it.kind == "needs" for name in it.said.split()]
        if any(how.startswith("run") for _, how in its):
            yield heading, steps(its), needed


def strays(document):
    """The blocks of which nothing says how they are handled."""
    for it, how in handled(document):
        yield f"{document}, line {it.line}", 1, [] if how else ["    a block that is not run: a comment has to say why"]


def is_there(name):
    """Whether a program is there; of yq the one that uses jq, since another of that name takes other words."""
    if name != "yq" or not shutil.which(name):
        return bool(shutil.which(name))
    return b"mikefarah" not in subprocess.run([name, "--version"], stdout=subprocess.PIPE, check=False).stdout


def put_out(folder, said):
    """What each command puts out, and its status."""
    os.makedirs(f"{folder}/bin")
    os.symlink(harness.PROGRAM, f"{folder}/bin/tmpl")
    os.symlink(harness.CHECKER, f"{folder}/bin/tmpl-check")
    os.symlink(f"{harness.TOP}/examples/quotes", f"{folder}/quotes")  # a path without spaces
    os.makedirs(f"{folder}/share/tmpl")
    os.symlink(f"{folder}/quotes", f"{folder}/share/tmpl/quotes")  # where an installed program has them
    os.makedirs(f"{folder}/room")
    shutil.copy(f"{harness.TOP}/examples/fractions.py", f"{folder}/room")  # which docs/COOKBOOK.md calls
    script = "\n".join(f"{it}\nstatus=$?; printf '{MARK}%d\\n' $status; (exit $status)" for it in said)
    environment = {**os.environ, "PATH": f"{folder}/bin:{os.environ['PATH']}", "LC_ALL": "C.UTF-8", "HOME": folder}
    environment["QUOTES"] = f"{folder}/quotes"
    how = {"cwd": f"{folder}/room", "env": environment, "stdout": subprocess.PIPE, "stderr": subprocess.STDOUT}
    ran = subprocess.run(["bash", "--norc"], input=script.encode(), timeout=5 * harness.SECONDS, **how)
    first, *rest = ran.stdout.decode(errors="replace").split(MARK)
    parts = [it.partition("\n") for it in rest]
    return [(text.strip("\n"), int(status)) for text, (status, _, _) in zip([first, *(it[2] for it in parts)], parts)]


def check(name, said):
    with tempfile.TemporaryDirectory() as folder:
        got = put_out(folder, [command for command, _ in said])
    got += [("it did not end", 1)] * (len(said) - len(got))
    for (command, wanted), (came, status) in zip(said, got):
        wrong = [f"    $ {command}", f"    got {came!r}", f"    wanted {wanted!r}"] if came != wanted.strip("\n") else []
        if not came and status and not wrong:
            wrong = [f"    $ {command}", f"    it fails with status {status}, and puts out nothing"]
        yield f"{name}: {command.splitlines()[0]}", 1, wrong


# a link or an image, outside of blocks and code, and what an address of the web begins with
LINK = re.compile(r"\[(?:[^\[\]]|\[[^\]]*\])*\]\(([^()\s]+)\)")
ELSEWHERE = ("http://", "https://", "mailto:")


def headings(text):
    """The anchors of a document, as those who show Markdown make them of its headings."""
    found = re.findall(r"^#+ (.*)$", re.sub(r"^```.*?^```", "", text, flags=re.MULTILINE | re.DOTALL), re.MULTILINE)
    return {re.sub(r"[^\w\- ]", "", it.replace("`", "").lower()).replace(" ", "-") for it in found}


def links(root, names):
    """The links of these documents of a folder, each with what is wrong with it."""
    for path in (f"{root}/{it}" for it in names):
        with open(path, encoding="utf-8") as it:
            text = it.read()
        plain = re.sub(r"`[^`\n]*`", "", re.sub(r"^```.*?^```", "", text, flags=re.MULTILINE | re.DOTALL))
        for to in LINK.findall(plain):
            if to.startswith(ELSEWHERE):
                continue
            name, _, anchor = to.partition("#")
            target = os.path.normpath(os.path.join(os.path.dirname(path), name)) if name else path
            wrong = [] if os.path.exists(target) else [f"    {to} is not there"]
            if anchor and not wrong and target.endswith(".md"):
                with open(target, encoding="utf-8") as it:
                    wrong = [] if anchor in headings(it.read()) else [f"    {to} names no heading"]
            yield f"{os.path.relpath(path, root)}: the link {to}", 1, wrong


def followed():
    """The links in the repository, and of the documents as `make install` places them."""
    yield from links(harness.TOP, documents())
    with tempfile.TemporaryDirectory() as folder:
        words = ["make", "-s", "install-documents", f"DESTDIR={folder}", "PREFIX=/usr"]
        subprocess.run(words, cwd=harness.TOP, stdin=subprocess.DEVNULL, check=True)
        placed = sorted(glob.glob(f"{folder}/**/*.md", recursive=True))
        yield from links(folder, [os.path.relpath(it, folder) for it in placed])


def main(words):
    if words == ["--list"]:
        for document in documents():
            for it, how in handled(document):
                print(f"{document}:{it.line}: {how or 'NOT HANDLED'}")
        return 0
    if not harness.is_built():
        return harness.closing(0, 1)
    results = []
    for document in documents():
        for heading, said, needed in sections(document):
            if not any([tools.lack(it, f"{document}, {heading}", is_there(it)) for it in dict.fromkeys(needed)]):
                results += check(f"{document}, {heading}", said)
    passed, failed, runs = harness.tally(results)
    failed += harness.too_few("commands were run", runs, LEAST)
    handlings = harness.tally([it for document in documents() for it in strays(document)])
    linked = harness.tally(followed())
    failed += linked[1] + harness.too_few("links were followed", linked[2], LEAST_LINKS)
    others = sum(how.startswith("not run") for document in documents() for _, how in handled(document))
    print(f"{handlings[2]} blocks, {others} of them marked as not run")
    return harness.closing(passed + linked[0] + handlings[0], failed + handlings[1])


if __name__ == "__main__":
    sys.exit(main(sys.argv[1:]))
