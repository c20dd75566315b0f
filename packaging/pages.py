"""Places the documents and the man pages as an installed program has them: `pages.py ROOT PREFIX`, where ROOT is the folder that stands for
PREFIX, such as `$DESTDIR$PREFIX`. What they say of PREFIX, which is /usr/local in the repository, is said of this one. A link to what is
not installed becomes its text, and the foot of each man page has the version and the logic of the program. `pages.py --pkg-config` fills in
what pkg-config reads, for $PREFIX. `pages.py --build` prints the version as one line, which is the file BUILD, and which `make install`
also puts into both programs, as a section that is not loaded."""
import glob
import os
import re
import subprocess
import sys

HERE = os.path.dirname(os.path.abspath(__file__))
TOP = os.path.dirname(HERE)
FOR_TESTS = bool(os.environ.get("FOR_TESTS"))  # what is built then is for the tests alone, and goes to out/tests
DOCUMENTS = ["README.md", "CHANGELOG.md", "docs/*.md", "docs/*.svg", "docs/*.png"]
FOLDERS = ["examples", "editors"]
MANUALS = {"man/tmpl.1": "share/man/man1", "man/tmpl-check.1": "share/man/man1", "man/tmpl-language.7": "share/man/man7"}
LINK = re.compile(r"\[((?:[^\[\]`]|`[^`]*`)*)\]\(([^()\s]+)\)")
BLOCK = re.compile(r"^```.*?^```$", re.MULTILINE | re.DOTALL)


def told(*words):
    """What a command prints, or nothing where it is not there or fails."""
    try:
        return subprocess.run(words, cwd=TOP, stdout=subprocess.PIPE, stderr=subprocess.DEVNULL, check=True).stdout.decode().strip()
    except (OSError, subprocess.CalledProcessError):
        return ""


def number():
    """The number of the version: that of the first heading of CHANGELOG.md."""
    with open(f"{TOP}/CHANGELOG.md", encoding="utf-8") as it:
        return re.search(r"^## (\d+\.\d+\.\d+)\b", it.read(), re.MULTILINE)[1]


def commit():
    """The day and the hash of the commit, and whether the tree is not just that one; nothing outside of a checkout."""
    found = told("git", "log", "-1", "--format=%cd %h", "--date=format:%Y%m%d", "--abbrev=12").split()
    return (*found, bool(told("git", "status", "--porcelain", "--untracked-files=no"))) if found else None


def is_released():
    """Whether this is the commit of the tag of the version, unchanged."""
    return f"v{number()}" in told("git", "tag", "--points-at", "HEAD").split() and not commit()[2]


def version():
    """The number of the version; before its tag with the day and the hash of the commit, by which Debian sorts it below the release."""
    if is_released() or not commit():
        return number()
    day, name, is_changed = commit()
    return f"{number()}~git{day}.{name}{'+changed' * is_changed}"


def toolchain():
    """What the toolchain says of itself: its kit and the logic of its proofs."""
    found = re.search(r"(\S+) logic ([0-9a-f]+)", told("rt", "version"))
    return found.groups() if found else ("", "")


def footer():
    return ", ".join(filter(None, [f"tmpl {version()}", f"logic {toolchain()[1]}" * bool(toolchain()[1])]))


def build():
    kit, logic = toolchain()
    untold = "that is not told"
    how = "for tests alone, beside" if FOR_TESTS else "proved by"
    source = version() if commit() and not is_released() else f"{number()} of {f'commit {commit()[1]}' if commit() else 'no commit'}"
    return f"tmpl {source} {how} the logic {logic or untold} of {kit or f'a toolchain {untold}'}"


def files():
    """The files of the documents, from the top of the repository on."""
    found = [it for pattern in DOCUMENTS for it in glob.glob(f"{TOP}/{pattern}")]
    found += [f"{at}/{it}" for folder in FOLDERS for at, _, its in os.walk(f"{TOP}/{folder}") for it in its]
    return sorted(os.path.relpath(it, TOP) for it in found)


def placed(text, path, names, prefix):
    """A page as it is installed."""

    def link(found):
        said, to = found.groups()
        target = os.path.normpath(os.path.join(os.path.dirname(path), to.partition("#")[0]))
        is_there = to.startswith(("#", "http://", "https://", "mailto:")) or target in names
        return found[0] if is_there else said

    parts, at = [], 0
    for block in BLOCK.finditer(text):
        parts += [LINK.sub(link, text[at : block.start()]), block[0]]
        at = block.end()
    return of_prefix("".join([*parts, LINK.sub(link, text[at:])]), prefix)


def of_prefix(text, prefix):
    return text.replace("/usr/local/share/", f"{prefix}/share/")


def write(path, held):
    os.makedirs(os.path.dirname(path), exist_ok=True)
    with open(path, "wb") as it:
        it.write(held)
    os.chmod(path, 0o644)


def place(root, prefix):
    names = files()
    known = {*names, *(os.path.dirname(it) for it in names)}
    for name in names:
        with open(f"{TOP}/{name}", "rb") as it:
            held = it.read()
        if name.endswith(".md"):
            held = placed(held.decode(), name, known, prefix).encode()
        write(f"{root}/share/doc/tmpl/{name}", held)
    write(f"{root}/share/doc/tmpl/BUILD", f"{build()}\n".encode())
    for name, folder in MANUALS.items():
        with open(f"{TOP}/{name}", encoding="utf-8") as it:
            text = it.read().replace('"" Rilphong', f'"" "{footer()}"', 1)
        write(f"{root}/{folder}/{os.path.basename(name)}", of_prefix(text, prefix).encode())


def main(words):
    if words == ["--build"]:
        print(build())
    elif words == ["--pkg-config"]:
        sys.stdout.write(sys.stdin.read().replace("@PREFIX@", os.environ["PREFIX"]).replace("@VERSION@", number()))
    elif len(words) == 2:
        place(*words)
    else:
        sys.exit("usage: pages.py ROOT PREFIX | --build | --pkg-config")


if __name__ == "__main__":
    main(sys.argv[1:])
