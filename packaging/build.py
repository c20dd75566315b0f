"""Has what was proved compiled once more, for another processor or system: `build.py CRATE TO FLAG..`, with flags of rattle, as
--cpu=x86-64. It gives rattle the words that `rt` would give it, over what the last check of the crate kept in out/, so it takes seconds;
of a crate that is not proved nothing comes. A program comes as its object, a library as its archive.

`build.py --module CRATE TO` gives the LLVM module for the oldest processor of x86-64, from which others are made: clang of the toolchain
is given that module, and a script in its place keeps it."""
import io
import os
import shlex
import shutil
import subprocess
import sys
import tempfile

TOP = os.path.dirname(os.path.dirname(os.path.abspath(__file__)))
sys.path.insert(0, TOP)
from tests.gate import proved

rtlib = proved.toolchain()
OLDEST = "--cpu=x86-64"
KEEPING = """#!/bin/sh
for it in "$@"; do case "$it" in *.bc) cp "$it" {module} ;; esac; done
exec {clang} "$@"
"""


def build(name, to, flags, tools=f"{rtlib.KIT}/toolchain"):
    """Has rattle build a crate, by a folder of tools."""
    to, folder = os.path.abspath(to), f"{TOP}/crates/{name}"
    crate = rtlib.Crate(folder, rtlib.root_above(folder), {})
    crate.out = io.StringIO()
    rtlib.lock([crate])
    os.chdir(folder)
    words = [rtlib.RATTLE, "build", *crate.words(["--jobs", "1", *flags]), "--toolchain", tools, "--backend", "llvm", *rtlib.KEPT, "-o", to]
    ran = subprocess.run(words, stdout=subprocess.PIPE, stderr=subprocess.STDOUT, text=True, errors="replace")
    if ran.returncode:
        sys.exit(f"{ran.stdout}\n{name} was not compiled: make proves it")


def keep_module(name, to):
    """Writes the module that clang is given."""
    to = os.path.abspath(to)
    with tempfile.TemporaryDirectory() as tools:
        shutil.copytree(f"{rtlib.KIT}/toolchain", tools, copy_function=os.symlink, dirs_exist_ok=True)
        os.remove(f"{tools}/bin/clang")
        with open(f"{tools}/bin/clang", "w", encoding="utf-8") as it:
            it.write(KEEPING.format(module=shlex.quote(to), clang=shlex.quote(f"{rtlib.KIT}/toolchain/bin/clang")))
        os.chmod(f"{tools}/bin/clang", 0o755)
        build(name, f"{tools}/built", [OLDEST], tools)


def main(words):
    if words[:1] == ["--module"] and len(words) == 3:
        keep_module(*words[1:])
    elif len(words) >= 2 and not words[0].startswith("-"):
        build(words[0], words[1], words[2:])
    else:
        sys.exit("usage: build.py CRATE TO FLAG.. | build.py --module CRATE TO")


if __name__ == "__main__":
    main(sys.argv[1:])
