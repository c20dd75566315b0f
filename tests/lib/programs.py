"""Where the programs are: those that are proved, in crates/NAME/out, and those that packaging/unproved.py compiles without proofs. A build
is up to date where nothing that it is made of is newer, and for those without proofs also where a checksum of all that is the same."""
import hashlib
import os
import subprocess

TOP = os.path.dirname(os.path.dirname(os.path.dirname(os.path.abspath(__file__))))
TESTS = f"{TOP}/tests/programs"
UNPROVED = f"{TOP}/out/unproved"
OF_TESTS = ("tmpl_probe", "tmpl_host")
ALL = ("tmpl", "tmpl-check", *OF_TESTS)
LIBRARY = "libtmpl_c.a"  # the engine as a C library
VARIABLES = {"tmpl": "TMPL", "tmpl-check": "TMPL_CHECK", "tmpl_probe": "TMPL_PROBE", "tmpl_host": "TMPL_HOST"}


def read(path):
    with open(path, encoding="utf-8") as it:
        return it.read()


def crate_of(name):
    return "tmpl_c" if name == LIBRARY else name.replace("-", "_")


def proved(name):
    """Where the proved build of a program is; none of a program of the tests."""
    return None if name in OF_TESTS else f"{TOP}/crates/{crate_of(name)}/out/{crate_of(name)}"


def unproved(name):
    return f"{TOP}/out/tests/lib/{name}" if name == LIBRARY else f"{UNPROVED}/bin/{name}"


def record_of(name):
    """Where the checksum stands of what an unproved build was made of."""
    return f"{UNPROVED}/{name}.checksum"


def uses():
    """The libraries of the repository that each crate names."""
    lists = read(f"{TOP}/crates.txt") + read(f"{TESTS}/programs.txt")
    lines = [it.partition("#")[0].partition(":") for it in lists.splitlines()]
    told = {crate.split()[0]: rest.split() for crate, _, rest in lines if crate.strip()}
    return {crate: [it for it in rest if it in told] for crate, rest in told.items()}


def folders_of(name):
    """Of each crate that a program is made of the folder that its code is in."""
    told, found = uses(), [crate_of(name)]
    for crate in found:
        found += [it for it in told[crate] if it not in found]
    return [f"{TESTS}/{it}" if it in OF_TESTS else f"{TOP}/crates/{it}/src" for it in sorted(found)]


def sources(name):
    """What a program is made of, with the folders, so that a file which is gone counts too."""
    found = [f"{TOP}/crates.txt", f"{TESTS}/programs.txt"] if name in OF_TESTS else [f"{TOP}/crates.txt"]
    for folder in folders_of(name):
        for at, folders, files in os.walk(folder):
            folders.sort()
            found += [at, *(f"{at}/{it}" for it in sorted(files))]
    return found


def checksum(name):
    """Of all that a program is made of, the toolchain too."""
    told = hashlib.sha256(subprocess.run(["rt", "version"], stdout=subprocess.PIPE, check=True).stdout)
    for path in filter(os.path.isfile, sources(name)):
        with open(path, "rb") as it:
            told.update(os.path.relpath(path, TOP).encode() + b"\0" + it.read() + b"\0")
    return told.hexdigest()


def is_proved(name):
    """Whether the proved build of a program is there and up to date."""
    path = proved(name)
    if not path or not os.access(path, os.X_OK):
        return False
    made = os.stat(path).st_mtime
    return all(os.stat(it).st_mtime <= made for it in sources(name))


def is_current(name):
    """Whether the unproved build of a program, or of the library, is there and up to date."""
    return os.path.isfile(unproved(name)) and os.path.exists(record_of(name)) and read(record_of(name)) == checksum(name)


def newest(name):
    """The newest build of a program, or where one would be."""
    built = [it for it in (proved(name), unproved(name)) if it and os.access(it, os.X_OK)]
    return max(built, key=lambda it: os.stat(it).st_mtime) if built else unproved(name)


def path(name):
    """The build of a program that tests take: the one that its variable of the environment names, else the newest."""
    return os.path.abspath(os.environ.get(VARIABLES[name]) or newest(name))


def kind(path):
    """What to say of a build."""
    shown = os.path.relpath(path, TOP) if path.startswith(f"{TOP}/") else path
    return f"{shown}, {'built without proofs' if path.startswith(UNPROVED) else 'proved' if path.startswith(f'{TOP}/crates/') else 'as asked'}"
