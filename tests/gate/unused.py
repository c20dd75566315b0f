"""Finds lemmas that nothing cites and imports that nothing uses, in specs/ and proofs/ of each crate and in the ghost lines of src/.

A lemma is a name that a file of proofs/ or of specs/computed/ states at the start of a line. It is cited where its name stands outside what states it, in any
file of the repository. Names of goals, invariants and examples are asked for by their files, and so are not looked at. An import is used where
its name stands in the rest of its file; what a file imports for others (`pub use`) is not looked at.

    unused.py [CRATE..]            looks at all crates, or at these
    unused.py --mend [CRATE..]     removes what it finds there, until nothing is left, and has `rt fmt` lay these crates out"""
import os
import re
import subprocess
import sys

from tests.lib import harness, programs

CRATES = f"{harness.TOP}/crates"
TOKEN = re.compile(r"[^\s()\[\]{},:;.\"]+")
STATED = re.compile(r"^(?:abbrev |unfoldable |opaque |private |record |data |family )*(?:pub )?(?:abbrev |unfoldable |record |data |family )*([^\s()\[\]{},:;.\"]+)(?: \([^)]*\)| \{[^}]*\})* :(?: |$)")
IMPORT = re.compile(r"^([ \t]*)((?:pub )?(?:ghost )?)use ([\w.]+?)(?:\.\{([^}\n]*)\}| as ([^\s;]+))?(;?)\n", re.MULTILINE)
ASKED = ("Answers.antt", "Invariants.antt", "Proof.antt", "Examples.antt", "Lib.antt")


def files():
    """Each file of definitions, proofs and code."""
    for name in sorted(os.listdir(CRATES)):
        for part in ("src", "specs", "proofs"):
            for at, folders, names in os.walk(f"{CRATES}/{name}/{part}"):
                folders.sort()
                yield from (f"{at}/{it}" for it in sorted(names) if it.endswith((".rt", ".antt")))


def crate_of(path):
    return os.path.relpath(path, CRATES).partition("/")[0]


def stretches(text):
    """What a file states, each name with the lines that state it."""
    found, name, lines = [], None, []
    for line in text.splitlines():
        if line and not line[0].isspace() and line[0] not in ")]}":  # a bracket ends what is stated above
            first = TOKEN.match(line.removeprefix("pub "))
            stated = STATED.match(line)
            if stated or not first or first[0] != name:
                found.append((name, lines))
                name, lines = (stated[1] if stated else None), []
        lines.append(line)
    return [*found, (name, lines)]


def count(texts):
    """In how many stretches each token stands, of all files, without those that state it."""
    told = {}
    for text in texts.values():
        for name, lines in stretches(text):
            for token in set(TOKEN.findall("\n".join(lines))) - {name}:
                told[token] = told.get(token, 0) + 1
    return told


def uncited(texts):
    """Of each file the lemmas that nothing cites."""
    told = count({path: IMPORT.sub("", text) for path, text in texts.items()})
    for path, text in texts.items():
        is_proof = "/proofs/" in path or "/specs/computed/" in path
        if is_proof and path.endswith(".antt") and not path.endswith(ASKED):
            yield path, [name for name, _ in stretches(text) if name and not told.get(name)]


def names_of(found):
    """What an import takes, each by its own name there; nothing where that is for others."""
    _, marks, of, names, other, _ = found.groups()
    if "pub " in marks:
        return []
    return [it.strip() for it in names.split(",")] if names else [other or of.rpartition(".")[2]]


def is_used(name, rest, tokens):
    """Whether a name stands in a text, of an operator each of its signs."""
    name = name.split(" as ")[-1]
    signs = [it for it in re.split("◌", name) if it] if "◌" in name else None
    return all(it in rest for it in signs) if signs is not None else name in tokens or name in ("", "[]")


def unused(text):
    """What a file imports and does not use."""
    rest = IMPORT.sub("", text)
    tokens = set(TOKEN.findall(rest))
    return [name for it in IMPORT.finditer(text) for name in names_of(it) if not is_used(name, rest, tokens)]


def without_imports(text):
    """A file without the imports that it does not use."""
    gone = set(unused(text))

    def left(found):
        names = [it for it in names_of(found) if it not in gone]
        if len(names) == len(names_of(found)):
            return found[0]
        return f"{found[1]}{found[2]}use {found[3]}.{{{', '.join(names)}}}{found[6]}\n" if names else ""

    return IMPORT.sub(left, text)


def without_lemmas(text, gone):
    """A file without these lemmas and the comments right above them."""
    kept = []
    for name, lines in stretches(text):
        if name not in gone:
            kept += lines
            continue
        while kept and kept[-1].startswith("-- "):
            kept.pop()
    return "\n".join(kept) + "\n"


def mend(texts, crates):
    """Removes from the files of these crates what nothing uses, until nothing is left."""
    ours, changed = {it for it in texts if crate_of(it) in crates}, True
    while changed:
        changed = {}
        for path, gone in uncited(texts):
            changed[path] = without_lemmas(texts[path], gone) if path in ours and gone else texts[path]
        changed = {path: without_imports(changed.get(path, texts[path])) for path in ours}
        changed = {path: text for path, text in changed.items() if text != texts[path]}
        texts.update(changed)
        for path, text in changed.items():
            with open(path, "w", encoding="utf-8") as it:
                it.write(text)
    for name in sorted(crates):
        subprocess.run(["rt", "fmt"], cwd=f"{CRATES}/{name}", check=True)


def main(words):
    crates = {it for it in words if it != "--mend"} or set(os.listdir(CRATES))
    texts = {path: programs.read(path) for path in files()}
    if "--mend" in words:
        mend(texts, crates)
        texts = {path: programs.read(path) for path in files()}
    wrong = [(path, f"nothing cites {name}") for path, names in uncited(texts) for name in names]
    wrong += [(path, f"{name} is imported and not used") for path, text in texts.items() for name in unused(text)]
    told = [f"{os.path.relpath(path, CRATES)}: {what}" for path, what in wrong if crate_of(path) in crates]
    print(*told, sep="\n", end="\n" * bool(told))
    return harness.closing(sum(crate_of(it) in crates for it in texts), len(told))


if __name__ == "__main__":
    sys.exit(main(sys.argv[1:]))
