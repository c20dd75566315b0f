"""What the tests share: the rows as data, one run of the program over one of them, and many runs in a row."""
import fcntl
import json
import multiprocessing
import multiprocessing.util
import os
import re
import shutil
import signal
import socket
import struct
import subprocess
import tempfile
import threading

from tests.lib import programs

TESTS = os.path.dirname(os.path.dirname(os.path.abspath(__file__)))
TOP = os.path.dirname(TESTS)
PROGRAM, CHECKER, PROBE, HOST = (programs.path(it) for it in programs.ALL)
SECONDS = 60  # for one run
ROWS = os.environ.get("ROWS", "")  # what the names of rows that are run have to hold
STOPS = bool(os.environ.get("STOPS"))  # whether a test ends at its first failure, as judges.py wants it
ENVIRONMENT = dict(os.environb)
MEMORY = "/dev/shm" if os.access("/dev/shm", os.W_OK) else None  # where files of tests are best kept: some disks wait for each
SET_PIPE_SIZE = 1031  # to fcntl
SERVE = None  # the shim by which one process serves many runs, once it is built
MESSAGE = 1 << 16  # bytes of words that it takes

KEYS = {"title", "program", "words", "files", "stdin", "stdout", "stderr", "out", "line", "status"}
TAKERS = {
    "stdout": {"pipe", "full device", "pipe that nobody reads"},
    "stderr": {"pipe", "full device", "closed"},
}


def is_built(*paths):
    """Whether these programs, or else tmpl, are there; of one that is not, says how to get it."""
    missing = [it for it in paths or (PROGRAM,) if not os.access(it, os.X_OK)]
    for it in missing:
        name = os.path.basename(it).replace("tmpl_check", "tmpl-check")
        print(f"there is no {name}: build it by `packaging/unproved.py {name}`, or name one by {programs.VARIABLES.get(name, 'TMPL')}=PATH")
    return not missing


def content(it):
    """The bytes that a content of a row stands for."""
    if isinstance(it, str):
        return it.encode()
    if set(it) == {"hex"}:
        return bytes.fromhex(it["hex"])
    if set(it) == {"repeat"}:
        what, times = it["repeat"]
        return content(what) * times
    if set(it) == {"parts"}:
        return b"".join(map(content, it["parts"]))
    raise ValueError(f"no content: {it}")


def is_pipe(it):
    """Whether a file of a row is a named pipe."""
    return not isinstance(it, str) and set(it) == {"pipe"}


class Row:
    """The words and files of one run, where its output goes, and what must come of it."""

    def __init__(self, subject, it):
        self.name = f"{subject}: {it['title']}"
        if set(it) - KEYS:
            raise ValueError(f"{self.name}: unknown keys {sorted(set(it) - KEYS)}")
        self.program = content(it.get("program", "tmpl"))
        self.words = [content(word) for word in it["words"]]
        files = it.get("files", {}).items()
        self.pipes = {name: content(what["pipe"]) for name, what in files if is_pipe(what)}
        self.files = {name: None if what == {"folder": True} else content(what) for name, what in files if not is_pipe(what)}
        self.stdin = content(it["stdin"]) if "stdin" in it else None
        self.stdout = it.get("stdout", "pipe")
        self.stderr = it.get("stderr", "pipe")
        if self.stdout not in TAKERS["stdout"] or self.stderr not in TAKERS["stderr"]:
            raise ValueError(f"{self.name}: output to {self.stdout}, errors to {self.stderr}")
        line = content(it.get("line", ""))
        # what goes to a device or a closed stream can't be seen
        self.out = content(it.get("out", "")) if self.stdout == "pipe" else b""
        self.err = line + b"\n" * bool(line) if self.stderr == "pipe" else b""
        self.status = it.get("status", 0)

    def size(self):
        return sum(len(it or b"") for it in self.files.values()) + len(self.out)

    def is_plain(self):
        """Whether a run needs no more than that its descriptors are opened."""
        return self.stdout != "pipe that nobody reads" and self.stderr != "closed"

    def is_again(self):
        """Whether it can be run again in the same folder: a named pipe is read once."""
        return not self.pipes

    def lay(self, folder):
        """Writes the files of the row into the folder."""
        for name, what in self.files.items():
            path = os.path.join(folder, name)
            os.makedirs(path if what is None else os.path.dirname(path), exist_ok=True)
            if what is not None:
                with open(path, "wb") as it:
                    it.write(what)

    def lay_pipes(self, folder):
        """Makes the named pipes of the row. What each holds is written once: a second read of it finds nobody."""
        for name, what in self.pipes.items():
            path = os.path.join(folder, name)
            if not os.path.exists(path):
                os.mkfifo(path)
            threading.Thread(target=fill, args=(path, what), daemon=True).start()


def filled(what):
    """A pipe that holds this."""
    read, write = os.pipe()
    threading.Thread(target=fill, args=(write, what), daemon=True).start()
    return read


def fill(pipe, what):
    """Writes what a pipe holds, a named one as soon as somebody reads it."""
    try:
        with open(pipe, "wb") as it:
            it.write(what)
    except BrokenPipeError:
        pass


def processes():
    """How many processes may run side by side."""
    return int(os.environ.get("PROCESSES") or len(os.sched_getaffinity(0)))


def free_memory():
    """The memory in bytes that processes may still take."""
    with open("/proc/meminfo", encoding="utf-8") as it:
        return 1024 * int(re.search(r"^MemAvailable: *(\d+) kB$", it.read(), re.MULTILINE)[1])


def read_rows():
    """The rows of tests/rows, in the order of the files' names, and the examples; where ROWS is set, those alone whose names hold it."""
    rows = []
    for name in sorted(it for it in os.listdir(f"{TESTS}/rows") if it.endswith(".json")):
        with open(f"{TESTS}/rows/{name}", encoding="utf-8") as it:
            rows += [Row(name[: -len(".json")], row) for row in json.load(it)]
    rows += read_examples()
    names = [row.name for row in rows]
    for name in {it for it in names if names.count(it) > 1}:
        raise ValueError(f"two rows are named {name}")
    return [row for row in rows if ROWS in row.name]


def read_examples():
    """The examples: each is run in its own folder, with the words of its file args, one a line. A file of another example that
    these name lies beside its own."""
    rows = []
    for name in sorted(it.name for it in os.scandir(f"{TOP}/examples") if it.is_dir()):
        at = f"{TOP}/examples/{name}"
        with open(f"{at}/args", encoding="utf-8") as it:
            words = it.read().splitlines()
        files = {}
        for file in sorted([*os.listdir(at), *(it for it in words if it.startswith("../"))]):
            with open(f"{at}/{file}", "rb") as it:
                files[os.path.basename(file)] = it.read()
        del files["args"]
        row = Row("examples", {"title": name, "words": [os.path.basename(it) if it.startswith("../") else it for it in words]})
        row.out, row.files = files.pop("expected"), files
        rows.append(row)
    return rows


def build_shim(source, to):
    """Compiles a shim of tests/shim with the clang of the toolchain, which stands beside the page that `rt doc` names."""
    page = subprocess.run(["rt", "doc"], stdout=subprocess.PIPE, check=True).stdout.decode().strip()
    tools = f"{os.path.dirname(page)}/toolchain/bin"
    flags = ["-O1", "-fPIC", "-shared", "-nostdlib", f"-fuse-ld={tools}/ld.lld"]
    if source.startswith("fail_"):
        source = os.environ.get("REFUSER", source)  # of judges.py
    subprocess.run([f"{tools}/clang", *flags, f"{TESTS}/shim/{source}", "-o", to], check=True)


class Late(Exception):
    """A run had not ended after SECONDS."""


def spawned(program, words, actions, environment=ENVIRONMENT, is_signalled=True):
    """Starts the program with these words, as a new process in the folder where this one is. It is no copy of this one, which
    would take the longer the larger this one is. Where it is signalled a write to a pipe that nobody reads ends it, unless
    it takes care."""
    signals = [signal.SIGPIPE] * is_signalled  # this process, as each of Python, ignores it
    return os.posix_spawn(PROGRAM, [program, *words], environment, file_actions=actions, setsigdef=signals)


def ended(process, read=lambda: None):
    """What is read, and the status of the process once it has ended. A status below 0 is a signal."""

    def stop(*_):
        raise Late

    signal.signal(signal.SIGALRM, stop)
    signal.alarm(SECONDS)
    try:
        got = read()
        status = os.waitpid(process, 0)[1]
    except Late:
        os.kill(process, signal.SIGKILL)
        os.waitpid(process, 0)
        raise
    finally:
        signal.alarm(0)
    return got, code_of(status)


def code_of(status):
    """What a process ended with: its status, or a signal below 0."""
    return os.WEXITSTATUS(status) if os.WIFEXITED(status) else -os.WTERMSIG(status)


def run(row, folder, more=None, keep=()):
    """One run of the program over a row, with pipes for what it puts out, and with more in its environment and these
    descriptors: its status, output and errors."""
    os.chdir(folder)
    row.lay_pipes(folder)
    held, taken = [], []  # descriptors of the program, and the ends of pipes that are read here

    def hold(descriptor):
        held.append(descriptor)
        return descriptor

    def given():
        return hold(os.open(os.devnull, os.O_RDONLY) if row.stdin is None else filled(row.stdin))

    def taker(where):
        if where == "full device":
            return hold(os.open("/dev/full", os.O_WRONLY))
        read, write = os.pipe()
        fcntl.fcntl(write, SET_PIPE_SIZE, 1 << 20)
        if where == "pipe":
            taken.append(read)
        else:
            os.close(read)
        return hold(write)

    actions = standing(given(), taker(row.stdout), *([] if row.stderr == "closed" else [taker(row.stderr)]))
    actions += [(os.POSIX_SPAWN_CLOSE, 2)] * (row.stderr == "closed")
    for it in keep:
        os.set_inheritable(it, True)
    is_read = row.stdout != "pipe that nobody reads"
    try:
        process = spawned(row.program, row.words, actions, {**ENVIRONMENT, **(more or {})}, is_read)
    finally:
        for it in held:
            os.close(it)
    # the errors have room in their pipe while the output is read
    got, status = ended(process, lambda: [read_all(it) for it in taken])
    out = got.pop(0) if row.stdout == "pipe" else b""
    return status, out, got.pop(0) if row.stderr == "pipe" else b""


def read_all(descriptor):
    """What a pipe gives up to its end."""
    with open(descriptor, "rb") as it:
        return it.read()


class Runner:
    """A folder of its own, in which a process runs the program many times, at less cost than `run`: what it puts out goes to
    files in memory."""

    def __init__(self):
        self.held = tempfile.TemporaryDirectory(dir=MEMORY)
        self.folder = os.fsencode(self.held.name)
        self.null, self.full = os.open(os.devnull, os.O_RDONLY), os.open("/dev/full", os.O_WRONLY)
        self.out, self.err, self.told = (os.memfd_create(name) for name in ("out", "err", "told"))
        self.actions = standing(self.null, self.out, self.err)
        self.server = None
        os.set_inheritable(self.told, True)

    def lay(self, name, what):
        """Writes a file into the folder."""
        path = os.path.join(self.folder, name)
        try:
            it = os.open(path, os.O_WRONLY | os.O_CREAT | os.O_TRUNC)
        except FileNotFoundError:
            os.makedirs(os.path.dirname(path))
            it = os.open(path, os.O_WRONLY | os.O_CREAT | os.O_TRUNC)
        with open(it, "wb", buffering=0) as file:
            while what:
                what = what[file.write(what) :]

    def lay_row(self, row):
        """Writes the files of a row into the folder, in which there are no others then."""
        self.empty()
        row.lay(self.held.name)

    def empty(self):
        """Removes all files of the folder."""
        for it in os.scandir(self.folder):
            if it.is_dir():
                shutil.rmtree(it.path)
            else:
                os.remove(it.path)

    def run(self, words):
        """The status, output and errors of one run. A status below 0 is a signal."""
        message = b"\0".join([*words, b""])
        if self.server is None:
            self.server = self.serving() if SERVE else False
        if not self.server or not words or len(message) > MESSAGE:
            return self.run_by(b"tmpl", words, self.actions)
        self.server.send(message)
        (status,) = STATUS.unpack(self.server.recv(STATUS.size))
        return code_of(status), taken_from(self.out), taken_from(self.err)

    def serving(self):
        """The socket of a process of the program that waits for words, and is copied for each run; False where it does not wait,
        as a program that is linked otherwise."""
        ours, theirs = socket.socketpair(socket.AF_UNIX, socket.SOCK_SEQPACKET)
        theirs.set_inheritable(True)
        os.chdir(self.folder)
        environment = {**ENVIRONMENT, b"LD_PRELOAD": os.fsencode(SERVE), b"SERVE": b"%d" % theirs.fileno()}
        process = spawned(b"tmpl", [], self.actions, environment)
        theirs.close()
        if ours.recv(1):
            multiprocessing.util.Finalize(None, end_server, (ours, process), exitpriority=1)
            return ours
        os.waitpid(process, 0)
        for it in (self.out, self.err):
            taken_from(it)
        return False

    def run_by(self, program, words, actions, environment=ENVIRONMENT):
        os.chdir(self.folder)
        _, status = ended(spawned(program, words, actions, environment))
        return status, taken_from(self.out), taken_from(self.err)

    def run_row(self, row, more):
        """One run over a row that is plain and whose files were laid, with more in its environment."""
        given = self.null if row.stdin is None else filled(row.stdin)
        out, err = (self.full if where == "full device" else it for where, it in ((row.stdout, self.out), (row.stderr, self.err)))
        try:
            return self.run_by(row.program, row.words, standing(given, out, err), {**ENVIRONMENT, **more})
        finally:
            if given != self.null:
                os.close(given)

    def turns(self):
        """What a shim told by `told` of copies of the program in each of which it refused something: the number, what came of
        the copy, and what the shim told of it."""
        held, at = memoryview(taken_from(self.told)), 0
        while at < len(held):
            number, status, *lengths = TURN.unpack_from(held, at)
            at += TURN.size
            parts = []
            for length in lengths:
                parts.append(bytes(held[at : at + length]))
                at += length
            err, out, told = parts
            yield number, (code_of(status), out, err), told


TURN = struct.Struct("5l")
STATUS = struct.Struct("i")


def end_server(server, process):
    """Ends a process that serves, and waits for it, so that its time is counted."""
    server.close()
    os.waitpid(process, 0)


def standing(*descriptors):
    """What makes these the standard descriptors of a new process."""
    return [(os.POSIX_SPAWN_DUP2, it, place) for place, it in enumerate(descriptors)]


def taken_from(descriptor):
    """What a file in memory holds, which is emptied."""
    size = os.lseek(descriptor, 0, os.SEEK_END)
    if not size:
        return b""
    what = os.pread(descriptor, size, 0)
    os.ftruncate(descriptor, 0)
    os.lseek(descriptor, 0, os.SEEK_SET)
    return what


def in_processes(check, cases, start, many):
    """What each case comes to, this many at a time to one of as many processes as there are processors. Where there is one
    processor no other process is started."""
    global SERVE
    count = processes()
    with tempfile.TemporaryDirectory() as folder:
        SERVE = f"{folder}/serve.so"
        build_shim("serve.c", SERVE)
        if count == 1:
            start()
            yield from map(check, cases)
            return
        with multiprocessing.get_context("fork").Pool(count, start) as pool:
            yield from pool.imap_unordered(check, cases, chunksize=many)
            pool.close()
            pool.join()


def too_few(what, count, least):
    """Says how many cases there were, and whether they are fewer than these: then a test shows less than it says. Of rows that were
    chosen there may be any number."""
    print(f"{count} {what}")
    if ROWS:
        return False
    if count < least:
        print(f"FAILED fewer than {least} {what}")
    return count < least


VALUES = (b"--data", b"--missingkey", b"--name", b"--depth", b"--steps")  # options with a value of its own word


def parted(words):
    """The options, the FILEs and the data file of words that are accepted."""
    options, files, data, rest = [], [], None, iter(words)
    for word in rest:
        if word == b"--":
            return options, [*files, *rest], data
        if word in VALUES:
            value = next(rest, b"")
            options += [word, value]
            data = value if word == b"--data" else data
        elif word.startswith(b"--"):
            options.append(word)
            data = word[len(b"--data=") :] if word.startswith(b"--data=") else data
        else:
            files.append(word)
    return options, files, data


def short(what):
    """Bytes as a person can read them, the middle of long ones left out."""
    return repr(what) if len(what) <= 300 else f"{what[:140]!r} .. {what[-140:]!r} ({len(what)} bytes)"


def differences(row, got):
    """What is not as the row wants it, a line each."""
    wanted = (row.status, row.out, row.err)
    shown = (str, short, short)
    names = ("status", "output", "errors")
    return [f"    {name}: {show(is_)}\n    wanted: {show(want)}" for name, show, is_, want in zip(names, shown, got, wanted) if is_ != want]


def tally(results):
    """Prints what was wrong under each name, and counts the names that passed, those that failed, and their runs."""
    passed = failed = runs = 0
    for name, count, wrong in results:
        if wrong:
            print(f"FAILED {name}", *wrong, sep="\n")
        passed, failed, runs = passed + (not wrong), failed + bool(wrong), runs + count
        if failed and STOPS:
            break
    return passed, failed, runs


def closing(passed, failed):
    """Prints the last line, and gives the exit status."""
    print(f"{passed} passed, {failed} failed")
    return 1 if failed or not passed else 0
