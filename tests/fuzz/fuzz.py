"""Fuzzes the C library by coverage, and holds what was found against the second telling of the language.

    fuzz.py [COUNT]

The toolchain is asked to build the library once more by a compiler that keeps the module which it is given. That is compiled twice more,
with a counter for each edge of the engine's own code, and of these once with a check of each of its accesses to memory
(AddressSanitizer); each is linked with fuzz.c and libFuzzer of clang. libFuzzer then makes COUNT inputs (10,000,000 if left out), a
quarter of them with the checks, in two processes, from the rows, the examples and random sets as seeds and the words of `dictionary`,
and keeps those that reach what none reached before. An input is four bytes of settings, and then, with a byte 0xFF between them, the
name that is run, the data, and the path and the text of up to three files. What fuzz.c asks of each is said there.

Then each input that was kept, and each seed, is given to the command: its text, line and status must be those of meaning.py, and what
`--print` puts out those of reading.py; that is read, printed and rendered again, as printing.py does. All is kept in bindings/out/fuzz.
`fuzz.py 0` makes no inputs, and holds those against meaning.py that are there. It needs clang with its runtime libraries."""
import collections
import glob
import hashlib
import os
import re
import resource
import shlex
import shutil
import subprocess
import sys
import unicodedata

from tests.check import printing, random_sets
from tests.lib import harness
from tests.oracle import meaning

HERE = os.path.dirname(os.path.abspath(__file__))

COUNT = 10_000_000
DRAWS = 3000  # random sets among the seeds
LONGEST = 1024  # bytes of an input
MEMORY = 1 << 30  # bytes that a process may have, and the command in it
LARGE = 1 << 20  # bytes of text that are compared at most
CUT = b"\xff"
MODES = (b"default", b"invalid", b"zero", b"error")
HELD = f"{harness.TOP}/bindings/out/fuzz"
CRATE = f"{harness.TOP}/crates/tmpl_c"
MODULE, CORPUS, SEEDS = (f"{HELD}/{name}" for name in ("module.bc", "corpus", "seeds"))
# The two programs, with what is asked of the compilers for each, and how many of four inputs each makes.
WAYS = {"counted": ([], 3), "checked": (["-fsanitize=address"], 1)}
COUNTERS = "-fsanitize-coverage=inline-8bit-counters,pc-table,trace-cmp"
CHECKS = "malloc_context_size=0:quarantine_size_mb=8:detect_leaks=0"
KEEPING = """#!/bin/sh
for it in "$@"; do case "$it" in *.bc) cp "$it" {module} ;; esac; done
exec {clang} "$@"
"""


# ---- the build


def kit():
    """The folder of the toolchain, in which the page is that `rt doc` names."""
    return os.path.dirname(subprocess.run(["rt", "doc"], stdout=subprocess.PIPE, check=True, text=True).stdout.strip())


def linked(folder, to, but=()):
    """A folder of links to what is in another one."""
    os.makedirs(to)
    for name in set(os.listdir(folder)) - {*but}:
        os.symlink(f"{folder}/{name}", f"{to}/{name}")


def keeping_kit(whole, to):
    """A toolchain that is the other one, but for a compiler that keeps the module which it compiles."""
    shutil.rmtree(to, ignore_errors=True)
    linked(whole, to, ["bin", "toolchain"])
    linked(f"{whole}/bin", f"{to}/bin", ["rt", "rtlib.py"])
    for name in ("rt", "rtlib.py"):  # they find the toolchain by where they are
        shutil.copy(f"{whole}/bin/{name}", f"{to}/bin/{name}")
    linked(f"{whole}/toolchain", f"{to}/toolchain", ["bin"])
    linked(f"{whole}/toolchain/bin", f"{to}/toolchain/bin", ["clang"])
    with open(f"{to}/toolchain/bin/clang", "w", encoding="utf-8") as it:
        it.write(KEEPING.format(module=shlex.quote(MODULE), clang=shlex.quote(f"{whole}/toolchain/bin/clang")))
    os.chmod(f"{to}/toolchain/bin/clang", 0o755)


def is_newer(path, *than):
    return os.path.exists(path) and all(os.path.getmtime(path) >= os.path.getmtime(it) for it in than)


def keep_module(whole):
    """Has the library built once more, and its module kept, where that is older than the library."""
    if is_newer(MODULE, f"{CRATE}/out/libtmpl_c.a"):
        return
    keeping_kit(whole, f"{HELD}/kit")
    subprocess.run([f"{HELD}/kit/bin/rt", "lib"], cwd=CRATE, check=True, stdout=subprocess.DEVNULL)
    os.utime(MODULE)


def checked(clang):
    """The module with the wish that each access to memory be checked, which stands among the attributes of a function; the probes of the
    stack do not go with it."""
    told = f"{HELD}/module.ll"
    subprocess.run([clang, "-S", "-emit-llvm", "-Xclang", "-disable-llvm-passes", "-x", "ir", MODULE, "-o", told], check=True)
    with open(told, encoding="utf-8") as it:
        lines = it.read()
    probes = re.compile(r'^(attributes #\d+ = \{.*)"probe-stack"="inline-asm" "stack-probe-size"="\d+"', re.MULTILINE)
    with open(told, "w", encoding="utf-8") as it:
        it.write(probes.sub(r"\1sanitize_address", lines))
    return told


def build(way):
    """The program of libFuzzer, with the engine as one of the ways has it."""
    asked, _ = WAYS[way]
    whole, engine = kit(), f"{HELD}/{way}-engine.o"
    keep_module(whole)
    if not is_newer(engine, MODULE):
        clang = f"{whole}/toolchain/bin/clang"
        flags = ["-O2", "-fPIC", "-march=x86-64", "-mllvm", "-trap-unreachable", *asked, COUNTERS]
        subprocess.run([clang, *flags, "-c", "-x", "ir", checked(clang) if asked else MODULE, "-o", engine], check=True)
    flags = ["-g", "-O2", "-Wall", "-Wextra", *asked, f"-I{harness.TOP}/bindings/c"]
    renamed = ["-include", "stdlib.h", *(f"-D{name}=fuzz_{name}" for name in ("malloc", "realloc", "free"))]
    ours, heap, keyed = (f"{HELD}/{way}-{it}.o" for it in ("fuzz", "heap", "keyed"))
    subprocess.run(["clang", *flags, "-c", f"{HERE}/fuzz.c", "-o", ours], check=True)
    subprocess.run(["clang", *flags, *renamed, "-c", f"{harness.TOP}/bindings/c/heap.c", "-o", heap], check=True)
    subprocess.run(["clang", *flags, "-c", f"{harness.TOP}/bindings/c/keyed.c", "-o", keyed], check=True)
    subprocess.run(["clang", *asked, "-fsanitize=fuzzer", ours, heap, keyed, engine, "-o", f"{HELD}/{way}"], check=True)


# ---- inputs


def input_of(files, data, options, pick):
    """The input for these files, these bytes of data and these options; none where it would be too long."""
    steps = next((it for it in range(255) if 1 + it * it // 16 >= options.steps), 255)
    depth = (options.depth - 1) % 64
    mode = MODES.index(options.missingkey) if options.missingkey in MODES else 0
    head = bytes([mode | 4 * (options.depth == 1000), steps, depth, pick % 256])
    parts = [options.name or b"", data or b"", *(part for file in files for part in file)]
    whole = head + CUT.join(parts)
    return whole if len(whole) <= LONGEST and not any(CUT in it for it in parts) else None


def row_input(row, pick):
    """The input for a row, where it is about files and data."""
    words = [word for word in row.words if word != b"--print"]
    options, paths, data = harness.parted(words)
    held = {os.fsencode(name): what for name, what in row.files.items()}
    files = [(path, held.get(path)) for path in paths]
    if not 0 < len(files) <= 3 or any(what is None for _, what in files):
        return None
    try:
        asked = random_sets.options_of(options)
    except (TypeError, ValueError):  # words that are refused
        return None
    return input_of(files, held.get(data), asked, pick)


def draw_input(seed):
    case = random_sets.Case(seed)
    return input_of(case.files, case.data and case.data[1], case.options, seed * 37)


def lay_seeds():
    """Writes the inputs that libFuzzer begins with."""
    os.makedirs(SEEDS, exist_ok=True)
    os.makedirs(CORPUS, exist_ok=True)
    rows = [row_input(row, 37 * number) for number, row in enumerate(harness.read_rows())]
    for it in filter(None, [*rows, *map(draw_input, range(DRAWS))]):
        with open(f"{SEEDS}/{hashlib.sha1(it).hexdigest()}", "wb") as file:
            file.write(it)


class Input:
    """What an input says, where it has files. A base name that the command can't be given is `m` in its place."""

    def __init__(self, whole):
        mode, steps, depth, _ = whole[:4]
        name, data, *parts = [*whole[4:].split(CUT, 7), b""][:8]
        bases = [path.rpartition(b"/")[2] for path in parts[: len(parts) // 2 * 2 : 2]]
        bases = [base if is_name(base) else b"m" for base in bases]
        self.files = [(b"%d/%s" % (place, base), what) for place, (base, what) in enumerate(zip(bases, parts[1::2]))]
        self.data = (b"data", data) if data else None
        name = name if is_word(name) else b""
        told = {"steps": 1 + steps * steps // 16, "depth": 1000 if mode & 4 else 1 + depth % 64}
        told |= {"missingkey": MODES[mode & 3], "name": name or None}
        self.options = meaning.Options(**told)
        said = [b"--steps", b"%d" % told["steps"], b"--depth", b"%d" % told["depth"], b"--missingkey", told["missingkey"]]
        self.words = said + [b"--name=" + name] * bool(name) + [b"--data", b"data"] * bool(data)
        self.words += [b"--", *(path for path, _ in self.files)]

    def case(self, name):
        """The same for printing.py."""
        return printing.Case(name, self.words, dict([*self.files, *([self.data] if self.data else [])]))


def is_word(it):
    """Whether the command can be given it."""
    try:
        it.decode()
    except UnicodeDecodeError:
        return False
    return b"\0" not in it


def is_name(base):
    return base not in (b"", b".", b"..") and len(base) <= 200 and is_word(base)


# ---- libFuzzer


def fuzz(count):
    """Makes this many inputs; gives how many were made, and whether one was found that ends a process."""
    lay_seeds()
    flags = [f"-max_len={LONGEST}", f"-dict={HERE}/dictionary", "-entropic=0", "-timeout=20", "-rss_limit_mb=3000", "-reload=30"]
    flags += ["-print_final_stats=1", f"-artifact_prefix={HELD}/found-"]
    running = []
    for way, (_, share) in WAYS.items():
        words = [f"{HELD}/{way}", *flags, f"-runs={-(-count * share // 4)}", f"-seed={share}", CORPUS, SEEDS]
        with open(f"{HELD}/{way}.log", "wb") as log:
            running.append(subprocess.Popen(words, stdout=log, stderr=log, env={**os.environ, "ASAN_OPTIONS": CHECKS}))
    is_found = any([it.wait() for it in running])
    return sum(map(tell_log, WAYS)), is_found


def tell_log(way):
    """Says what a process of libFuzzer came to, and gives how many inputs it ran."""
    with open(f"{HELD}/{way}.log", encoding="utf-8", errors="replace") as it:
        log = it.read()

    def last(wanted):
        return int((re.findall(wanted, log) or [0])[-1])

    runs, speed = (last(rf"stat::{name}: +(\d+)") for name in ("number_of_executed_units", "average_exec_per_sec"))
    reached, edges = last(r"cov: (\d+)"), last(r"(\d+) inline 8-bit counters")
    print(f"{way}: {runs} inputs, {speed} a second; {reached} of {edges} edges reached")
    for line in re.findall(r"(?m)^(?:FAILED|==\d+==ERROR|SUMMARY).*", log):
        print(f"  {line}")
    return runs


# ---- what was kept, against meaning.py


def start():
    resource.setrlimit(resource.RLIMIT_AS, (MEMORY, MEMORY))
    random_sets.start()
    printing.RUNNER = random_sets.RUNNER


def is_known(told):
    """Whether Python's tables give each rune a category. The program's are those of the toolchain, which know more runes, and a quote has
    what they know as it is."""
    return all(unicodedata.category(rune) != "Cn" for rune in told.decode(errors="ignore"))


def check(path):
    """How the command ended over an input, and what is wrong; or why it could not be compared."""
    with open(path, "rb") as it:
        given = Input(it.read())
    if not given.files:
        return "no files", []
    random_sets.Case.lay(given, random_sets.RUNNER)
    got = random_sets.RUNNER.run(given.words)
    if got[0] == 7 or len(got[1]) > LARGE:
        return "a large text", []
    printed = random_sets.RUNNER.run([b"--print", *given.words])
    wanted = meaning.outcome(given.files, given.data, given.options)
    if got == wanted:
        wrong, _ = printing.check(given.case(path))
    else:
        wrong = [*random_sets.shown("got", got), *random_sets.shown("wanted", wanted)]
    if wrong and not is_known(got[1] + got[2] + printed[1]):
        return "runes that Python's tables lack", []
    return f"status {got[0]}", [f"FAILED {path}, with the words {given.words}", *wrong] if wrong else []


def compare():
    """Holds the command against meaning.py and reading.py over all inputs that are there."""
    paths, came, failed = glob.glob(f"{CORPUS}/*") + glob.glob(f"{SEEDS}/*"), collections.Counter(), 0
    for how, wrong in harness.in_processes(check, paths, start, 20):
        print(*wrong, sep="\n", end="\n" * bool(wrong))
        came[how], failed = came[how] + 1, failed + bool(wrong)
    for how, number in sorted(came.items()):
        print(f"{number:6} {'came to' if how.startswith('status') else 'were not compared:'} {how}")
    return sum(number for how, number in came.items() if how.startswith("status")) - failed, failed


def main(count=COUNT):
    if not harness.is_built():
        return harness.closing(0, 1)
    made, is_found = 0, False
    if int(count):
        os.makedirs(HELD, exist_ok=True)
        for way in WAYS:
            build(way)
        made, is_found = fuzz(int(count))
        print(f"{made} inputs were made")
    passed, failed = compare()
    return harness.closing(passed + made, failed + is_found)


if __name__ == "__main__":
    sys.exit(main(*sys.argv[1:]))
