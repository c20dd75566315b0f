"""Runs the rows through what `make static` and `make aarch64` build, and makes the packages twice. Each row of tests/rows goes through the
static program, as rendered.py has it; some go through it on a processor that has nothing beyond the first x86-64. In a root without any
other file it renders an example. What is for aarch64 runs by QEMU: the rows that are calls, and 20,000 changed ones, go through the
library, by asked.c, where the text and the line of a changed one must be those of the library that is built here; the other rows, and every
eighth of those, go through the program. With --long all of them do. The packages of both are made twice, and must have the same bytes.

What needs a program that is not installed is left out, with a line that says so. Where nothing is tried but the static programs, and those of
`make static` are not up to date, they are linked of the objects that the check of the programs left: these are proved too, but for x86-64-v2,
and stand in out/tests/packages. A program that `rt ci` kept from an earlier run left none: its object is compiled without proofs."""
import json
import multiprocessing
import os
import re
import shutil
import subprocess
import sys
import tempfile

from tests.check import rendered
from tests.lib import harness, tools

PORTS = f"{harness.TOP}/packaging/out"
PORTS_FOR_TESTS = f"{harness.TOP}/out/tests/packages"
CHANGED = 20_000
SOME = 16  # each this many rows go through the static program on an old processor
CALLS = 8  # each this many rows that are calls go through the program for aarch64
LEAST = 1500  # rows that there are
LEAST_OLD, LEAST_ARM = LEAST // SOME, 300  # .. of these for an old processor, and for aarch64
HELLO = f"{harness.TOP}/examples/hello"
IMAGE = re.compile(r"^```dockerfile\n(FROM scratch\n.*?)^```$", re.MULTILINE | re.DOTALL)


def ran(*words, **how):
    """The status and all output of a program."""
    given = {} if "input" in how else {"stdin": subprocess.DEVNULL}
    it = subprocess.run(words, stdout=subprocess.PIPE, stderr=subprocess.STDOUT, **given, **how)
    return it.returncode, it.stdout.decode(errors="replace")


def written(path, text):
    """A file with this text, by its path."""
    with open(path, "w", encoding="utf-8") as it:
        it.write(text)
    return path


# ---- rows


def start():
    global RUNNER
    RUNNER = harness.Runner()


def judge_row(row):
    return rendered.check(RUNNER, row)


def judge_rows(what, program, rows, least):
    """Rows, of which there are at least so many, through a program, in as many processes as there are processors."""
    harness.PROGRAM = program
    with multiprocessing.get_context("fork").Pool(harness.processes(), start) as pool:
        wrong = [f"    {row.name}: {line}" for row, lines in zip(rows, pool.map(judge_row, rows, chunksize=8)) for line in lines]
        pool.close()
        pool.join()
    print(f"{len(rows)} rows went through {what}")
    return what, len(rows), wrong + [f"    these are fewer than {least}"] * (len(rows) < least)


def by_qemu(folder, name, machine, program, *flags):
    """A program that runs another one by QEMU."""
    path = f"{folder}/{name}"
    words = [f'-DQEMU="{shutil.which(machine)}"', f'-DPROGRAM="{program}"', *flags]
    subprocess.run(["cc", "-O1", *words, f"{harness.TESTS}/ports/by_qemu.c", "-o", path], check=True)
    return path


# ---- an empty root


def way_into_roots():
    """What runs a program in another root: with the rights of root, or in a name space of its own; none where neither is allowed."""
    for way in (["chroot"], ["unshare", "--map-root-user", "chroot"]):
        if shutil.which(way[0]) and ran(*way, "/", "/bin/true")[0] == 0:
            return way
    return None


def judge_root(folder, way, program, what):
    """A program in a root that has no file but its own and those of an example."""
    root = f"{folder}/{what}-root"
    shutil.copytree(HELLO, root)
    shutil.copy(program, f"{root}/tmpl")
    with open(f"{HELLO}/expected", encoding="utf-8") as it:
        wanted = it.read()
    cases = [
        (["--data", "data.json", "hello.tmpl"], (0, wanted)),
        (["--data", "no.json", "hello.tmpl"], (3, "tmpl: no.json: no such file\n")),
    ]
    wrong = []
    for words, come in cases:
        got = ran(*way, root, "/tmpl", *words)
        wrong += [] if got == come else [f"    {words}: got {got}"]
    return f"{what}, in an empty root", len(cases), wrong


def judge_image(folder, way, program):
    """The image from nothing of docs/INSTALL.md, as a folder, with the data as its standard input."""
    with open(f"{harness.TOP}/docs/INSTALL.md", encoding="utf-8") as it:
        lines = IMAGE.search(it.read())[1].splitlines()
    root = f"{folder}/image"
    os.makedirs(root)
    given = {"tmpl": program, "site.tmpl": written(f"{folder}/site.tmpl", "listen {{.port}};\n")}
    for kind, rest in (it.split(" ", 1) for it in lines):
        if kind == "COPY":
            name, to = rest.split()
            shutil.copy(given[name], f"{root}{to}")
        elif kind == "WORKDIR":
            os.makedirs(f"{root}{rest}")
        elif kind == "ENTRYPOINT":
            got = ran(*way, root, *json.loads(rest), input=b'{"port": 80}')
    return "the image of docs/INSTALL.md", 1, [] if got == (0, "listen 80;\n") else [f"    got {got}"]


# ---- the library, and packages


def judge_library(folder):
    """The library for aarch64, held to the rows and to what the one that is built here says."""
    from tests.check import asked  # it takes the library that is built here

    calls = asked.of_rows()
    rows = asked.write(f"{folder}/rows", calls)
    changes = asked.write(f"{folder}/changes", asked.of_changes(calls, CHANGED))
    program = f"{folder}/asked"
    words = ["-O2", "-Wall", "-Wextra", "-static", f"-I{harness.TOP}/bindings/c"]
    status, said = ran("aarch64-linux-gnu-gcc", *words, f"{harness.TESTS}/ports/asked.c", f"{PORTS}/aarch64/libtmpl.a", "-o", program)
    if not status:
        status, said = ran("qemu-aarch64", program, f"{folder}/rows", f"{folder}/changes")
    print(f"{rows} rows and {changes} changed calls went through the library for aarch64")
    is_right = status == 0 and said == f"{rows + changes} passed, 0 failed\n" and rows >= asked.LEAST
    return "the library for aarch64", rows + changes, [] if is_right else [f"    {said}"]


def made(*words):
    """What was packed, by its path."""
    status, said = ran(sys.executable, f"{harness.TOP}/packaging/make.py", *words)
    if status:
        raise ValueError(said)
    path = said.splitlines()[-1]
    with open(path, "rb") as it:
        return it.read(), path


def judge_packages(port):
    """The packages of a port, made twice, of which the second must be as the first; and the one for Debian is tried."""
    wrong = []
    for kind in ("tar", "deb"):
        one, path = made(kind, port)
        other, _ = made(kind, port)
        wrong += [] if one == other else [f"    {path} has other bytes when it is made again"]
    status, said = ran(f"{harness.TOP}/packaging/try.sh", path)
    return f"the packages: {port}", 3, wrong + ([f"    {said}"] if status else [])


# ---- all


def of_arm(rows, is_long):
    """The rows that go through the program for aarch64."""
    from tests.check import asked

    calls = {it.name for it in rows if asked.library.call_of(it)}
    some = {name for name in sorted(calls)[::CALLS]}
    return [it for it in rows if is_long or it.name in some or it.name not in calls]


def is_tried(emulator, compiler):
    """Whether what runs by this emulator is tried."""
    has_compiler = not compiler or not tools.lack(compiler, "what is for aarch64, which is not built")
    return has_compiler and not tools.lack(emulator, f"what it runs, {'for aarch64' if compiler else 'on the first x86-64'}")


def parts(folder, is_old, is_arm, is_long):
    """All results."""
    static, arm, rows, way = f"{PORTS}/static/tmpl", f"{PORTS}/aarch64/tmpl", harness.read_rows(), way_into_roots()
    yield judge_rows("the static program", static, rows, LEAST)
    yield judge_packages("static")
    if not tools.lack("chroot", "the programs in a root of their own, which may not be made", bool(way)):
        yield judge_root(folder, way, static, "the static program")
        yield judge_image(folder, way, static)
    if is_old:
        old = by_qemu(folder, "old", "qemu-x86_64", static, '-DCPU="qemu64"')
        yield judge_rows("the static program, on the first x86-64", old, rows[::SOME], LEAST_OLD)
    if is_arm:
        yield judge_packages("aarch64")
        yield judge_rows("the program for aarch64", by_qemu(folder, "arm", "qemu-aarch64", arm), of_arm(rows, is_long), LEAST_ARM)
        yield judge_library(folder)


def build(is_old, is_arm):
    """Has make build what is tried. Whether it did."""
    global PORTS
    is_proved = is_old or is_arm or ran("make", "-q", "-C", harness.TOP, "static")[0] == 0
    if not is_proved:
        os.environ["FOR_TESTS"], PORTS = "1", PORTS_FOR_TESTS
    status, said = ran("make", "-s", "-C", harness.TOP, "static", *["aarch64", "lib"] * is_arm)
    print("for each processor" if is_proved else "of objects for the tests alone", said * bool(status), sep="\n")
    return not status


def main(words):
    is_old, is_arm = is_tried("qemu-x86_64", None), is_tried("qemu-aarch64", "aarch64-linux-gnu-gcc")
    if not build(is_old, is_arm):
        return harness.closing(0, 1)
    with tempfile.TemporaryDirectory() as folder:
        passed, failed, _ = harness.tally(parts(folder, is_old, is_arm, words == ["--long"]))
    return harness.closing(passed, failed)


if __name__ == "__main__":
    sys.exit(main(sys.argv[1:]))
