"""Builds programs without proofs and shows that they run: `demo.py tmpl` renders examples/hello, `demo.py tmpl-check` checks a template. Both
stay in out/unproved/bin."""
import os
import subprocess
import sys
import tempfile

import unproved
from unproved import TOP

HELLO = f"{TOP}/examples/hello"
WRONG = "Hello {{name}}\n"


def render(tmpl):
    """Renders the example; its exit status."""
    return subprocess.run([tmpl, "--data", f"{HELLO}/data.json", f"{HELLO}/hello.tmpl"]).returncode


def check(tmpl_check):
    """Checks a template with a mistake; 0 where that is reported."""
    with tempfile.TemporaryDirectory() as folder:
        unproved.write(f"{folder}/wrong.tmpl", WRONG)
        print(f"$ cat wrong.tmpl\n{WRONG}$ tmpl-check wrong.tmpl", flush=True)
        return int(subprocess.run([tmpl_check, "wrong.tmpl"], cwd=folder).returncode != 1)


def main(name):
    print(f"Building {name} without proofs, one to two minutes ..", file=sys.stderr, flush=True)
    (path,) = unproved.build_all([name])
    status = {"tmpl": render, "tmpl-check": check}[name](path)
    folder = os.path.relpath(os.path.dirname(path), TOP)
    print(f'It is {folder}/{name}, and not proved: `export PATH="$PWD/{folder}:$PATH"` to use it, `make` to prove and build it.', file=sys.stderr)
    return status


if __name__ == "__main__":
    sys.exit(main(*sys.argv[1:]))
