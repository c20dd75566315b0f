"""What some tests need and not every machine has, each with Debian's package of it. A test that lacks one leaves out a part, and says so by
`lack`; runner.py names these at its end, and with RILPHONG_TOOLS=all it fails where one of a package is missing."""
import importlib.util
import re
import shutil

PACKAGES = {
    "aarch64-linux-gnu-gcc": "gcc-aarch64-linux-gnu libc6-dev-arm64-cross",
    "chromium": "chromium",
    "distributed": "python3-distributed",
    "fish": "fish",
    "jq": "jq",
    "jsonschema": "python3-jsonschema",
    "man": "man-db",
    "nginx": "nginx-light",
    "node": "nodejs",
    "npm": "npm",
    "objcopy": "binutils",
    "parallel": "parallel",
    "pkg-config": "pkg-config",
    "qemu-aarch64": "qemu-user",
    "qemu-x86_64": "qemu-user",
    "ruamel": "python3-ruamel.yaml",
    "tsc": "node-typescript",
    "valgrind": "valgrind",
    "vim": "vim",
    "wasm-opt": "binaryen",
    "yaml": "python3-yaml",
    "yq": "yq",
    "zsh": "zsh",
}
MODULES = ("jsonschema", "ruamel", "yaml", "tomllib")  # of Python
SKIPPED = re.compile(r"^skipped, since (\S+) is missing: ")


def is_there(name):
    return bool(importlib.util.find_spec(name) if name in MODULES else shutil.which(name))


def lack(name, what, has=None):
    """Whether a tool is missing; then it says what is not tried. `has` is told where that is no program or module of its own."""
    if is_there(name) if has is None else has:
        return False
    print(f"skipped, since {name} is missing: {what}", flush=True)
    return True


def missing_in(lines):
    """The tools that the output of a test names as missing."""
    return [it[1] for it in map(SKIPPED.match, lines) if it]
