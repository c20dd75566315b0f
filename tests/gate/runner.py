"""Runs tests, each a command of its own, whatever the others came to, and adds up their last lines 'N passed, N failed'. A command without
such a line, or with a status that it does not explain, counts as one failure. What `make test` and `make prove` run stands here, in TESTS,
and nowhere else.

    tests/run                what `make test` runs: the programs are built without proofs, where no build of them is up to date, and tested
    tests/run --all          what `make prove` runs: the proofs from nothing, then each test over the programs that they left
    tests/run NAME..         these alone, by their names, over the newest builds; the name of a folder, as fault, is all of it
    tests/run -k TEXT ..     of tests over rows only the rows, and examples, whose names hold the text
    tests/run -j N ..        N checks and N processes side by side, in place of as many as there are processors
    tests/run --list         the names, each with what it does
    tests/run --self         the tests of the tests: each must fail over programs that answer wrongly
    tests/run --all --record writes what each part took to tests/gate/times.json, from which the times still to come are told

The bodies of `tried` are tried while `rt ci` proves other crates, by what it leaves of the processors, and so are run the tests of `tmpl` once
that is proved.
What a test leaves out for want of a tool is named at the end; with RILPHONG_TOOLS=all in the environment a run fails where one is missing that
Debian has (tests/lib/tools.py). Tests run side by side; those that call make run one after the other. The libraries that `rt ci` proved are marked for `rt lib`. Without RT_JOBS
`rt ci` gives a check the processors that no other waits for, so that the longest chain of crates ends sooner; with RT_JOBS=N it has N checks of
one job each, which takes a quarter less of the processors' time."""
import argparse
import contextlib
import datetime
import json
import os
import re
import shlex
import subprocess
import sys
import threading
import time
from concurrent.futures import FIRST_COMPLETED, ThreadPoolExecutor, wait

from tests.gate import edits, processors, proved, tried
from tests.lib import harness, programs, tools

PROOFS = "proofs"
BY_RATTLE = f"env TMPL={harness.TOP}/crates/tmpl/out/tmpl.by-rattle"  # the program as the toolchain's other compiler builds it
# each test by its name: the command, or a module of a folder beside this one with its words
TESTS = {
    PROOFS: "rt ci",
    "edits": "gate.edits --apply",
    "tried": "gate.tried",
    "judges": "gate.judges",
    "recipe": "gate.recipe",
    "believed": "gate.believed",
    "unused": "gate.unused",
    "rendered": "check.rendered",
    "rendered-by-rattle": f"{BY_RATTLE} {sys.executable} -m tests.check.rendered",
    **{name: f"check.{name}" for name in ("places", "tables", "prefixes", "printing", "random_sets")},
    **{name: f"fault.{name}" for name in ("calls", "kept", "lent_memory", "writes", "sweep", "memory", "counts")},
    **{name: f"gate.{name}" for name in ("generated", "documents", "wording")},
    **{name: f"check.{name}" for name in (
        "instructions", "host", "hostile", "quotes", "library", "ports", "web", "problems", "migration", "verdicts", "outputs", "highlighting",
        "formats",
    )},
}
MODULE = re.compile(r"(gate|check|fault)\.\w+")
# what `make test` runs, the longest first, with the words that make it shorter than in the gate
QUICK = {
    **dict.fromkeys(("random_sets", "quotes", "printing", "verdicts", "outputs", "problems", "hostile", "rendered", "places", "tables", "migration")),
    "highlighting": None, "formats": None,
    **dict.fromkeys(("documents", "generated", "wording", "believed", "unused")), "prefixes": "--some", "instructions": None, "host": None,
}
# the programs that a test runs, where these are not tmpl alone
RUNS = {
    **dict.fromkeys(("problems", "migration", "verdicts", "outputs", "documents", "generated", "hostile"), ("tmpl", "tmpl-check")),
    "library": ("tmpl", "tmpl-check", programs.LIBRARY),
    "judges": programs.ALL,
    **dict.fromkeys(("calls", "kept", "lent_memory", "memory", "prefixes", "instructions", "formats"), ("tmpl", "tmpl_probe")),
    "host": ("tmpl_host", "tmpl_probe"),
    **dict.fromkeys((PROOFS, "edits", "tried", "believed", "wording", "unused", "recipe", "highlighting"), ()),
}
BY_MAKE = ("library", "ports", "web")  # these call make, so they run one after the other
# what is run beside the proofs once `tmpl` is proved: tests of no other proved program, and of what no proof leaves
WITHIN = [
    name for name in TESTS
    if name not in (PROOFS, "edits", "tried", *BY_MAKE) and set(RUNS.get(name, ("tmpl",))) <= {"tmpl", *programs.OF_TESTS}
]
OVER_ROWS = ("rendered", "rendered-by-rattle", "problems", "verdicts")  # these take -k
TIMES = f"{harness.TESTS}/gate/times.json"
CRATE = re.compile(r"rt: (\w+)(?: proved| is kept)\b")  # a line of `rt ci` that says that a crate is done
SLOWEST = 5
ROOM = 6_000_000_000  # bytes that are free when a check begins beside the proofs
YIELDING = ("nice", "-n", "19")
# what runs of `rt ci` prove, a crate each, beside the one that proves all, once each crate below the first has been proved by a run of its own:
# such a run has two processors for its crate, and reckons with the memory that is free when it begins. One by itself reckons a check at twice
# what it takes, and gives a crate one processor where others wait, so processors are idle
LAST = ("tmpl_report", "tmpl_c", "tmpl_check")
LEAD = 30  # seconds after which the first of these has begun
ROOM_FOR_A_CRATE = 5_500_000_000  # bytes, more than a check of a crate takes


def command(name, more=None):
    """The words of the command of a test."""
    words = shlex.split(TESTS[name]) + shlex.split(more or "")
    return [sys.executable, "-m", f"tests.{words[0]}", *words[1:]] if MODULE.match(words[0]) else words


def minutes(seconds):
    return f"{seconds:.0f} s" if seconds < 90 else f"{seconds / 60:.0f} min"


class Progress:
    """How much is done of what is to do, and how long the rest takes by what is written down of earlier runs."""

    def __init__(self, names, lanes):
        self.lanes, self.recorded = lanes, json.loads(programs.read(TIMES))
        self.left = {name: self.recorded["tests"].get(name, 0) for name in names if name != PROOFS}
        self.crates = dict(self.recorded["crates"]) if PROOFS in names else {}
        self.whole, self.whole_crates = len(self.left), len(self.crates)

    def rest(self):
        return f"about {minutes((sum(self.left.values()) + sum(self.crates.values())) / self.lanes)} left"

    def end_crate(self, name):
        """Says how far the proofs are, where a crate is done."""
        if self.crates.pop(name, None) is not None:
            print(f"-- {self.whole_crates - len(self.crates)} of {self.whole_crates} crates, {self.rest()}", flush=True)

    def end_test(self, name):
        self.left.pop(name, None)
        return f"{self.whole - len(self.left)} of {self.whole} tests, {self.rest()}"


def run(name, environment, see, more=None, before=()):
    """Runs a command, shows each of its lines to `see`: what passed and what failed, and the seconds of processors that it took."""
    last = ""
    ran = subprocess.Popen([*before, *command(name, more)], stdout=subprocess.PIPE, stderr=subprocess.STDOUT, cwd=harness.TOP, env=environment)
    for line in ran.stdout:
        text = line.decode(errors="replace").rstrip("\n")
        see(text)
        last = text.strip() or last
    _, status, used = os.wait4(ran.pid, 0)
    ran.returncode = os.waitstatus_to_exitcode(status)
    told = re.fullmatch(r"(\d+) passed, (\d+) failed", last)
    passed, failed = map(int, told.groups()) if told else (0, 1)
    if not failed and (ran.returncode or not passed):
        failed = 1
    return passed, failed, used.ru_utime + used.ru_stime


class Beside:
    """Tries wrong bodies of crates that are proved, and runs tests of the program once it is, while `rt ci` proves other crates: by half of the
    processors, and where memory is free."""

    def __init__(self, names, its):
        self.started = time.time()
        self.its, self.pool, self.lock = its, ThreadPoolExecutor(max(1, harness.processes() // 2)), threading.Lock()
        self.crates, self.tests = tried.TRIED if "tried" in names else (), [it for it in names if it in WITHIN]
        self.reads = "edits" in names
        self.futures, self.begun, self.has_ended = {}, [], False

    def add(self, crate):
        """Begins what can be run as soon as this crate is proved."""
        if crate in self.crates:
            self.futures[crate] = self.pool.submit(self.run, crate, self.try_bodies)
        if crate == "tmpl":
            self.futures.update({it: self.pool.submit(self.run, it, self.its.test_beside) for it in self.tests})
        if crate == LAST[0] and self.reads:
            self.futures["edits"] = self.pool.submit(self.run, "edits", self.read_edits)

    def begin(self, name):
        """Whether it is begun now."""
        with self.lock:
            can_begin = not self.has_ended and harness.free_memory() >= ROOM
            self.begun += [name] * can_begin
            return can_begin

    def run(self, name, call):
        """What came of it; nothing, where the proofs ended before it was begun."""
        while not self.begin(name):
            if self.has_ended:
                return None
            time.sleep(1)
        return call(name)

    def try_bodies(self, crate):
        lines = []
        came = run("tried", os.environ, lines.append, f"--proved {crate}", YIELDING)
        print(f"== tried {crate}", *lines, sep="\n", flush=True)
        return came

    def read_edits(self, name):
        """Reads the edits, once each library stands that a crate with edits uses."""
        proved.mark(self.started)
        return self.its.test_beside(name)

    def end(self):
        """Begins no more, and gives the crates of which wrong bodies are left."""
        with self.lock:
            self.has_ended = True
            return [it for it in tried.wanted() if it not in self.begun]

    def came(self, of_rest):
        """What came of each test that was begun, and of the wrong bodies: of those here, and of the rest."""
        came = {name: it.result() for name, it in self.futures.items() if name in self.begun}
        bodies = [it for name, it in came.items() if name not in TESTS]
        tests = {name: it for name, it in came.items() if name in TESTS}
        return {**tests, "tried": tuple(map(sum, zip(*bodies, of_rest)))} if self.crates else tests


def prove(progress, beside):
    """Has `rt ci` prove all, and marks what it proved for `rt lib`."""
    begun = time.time()

    def see(line):
        print(f"{line}\n", end="", flush=True)
        if found := CRATE.match(line):
            progress.end_crate(found[1])
            return found[1]

    def see_last(line):
        if crate := see(line):
            beside.add(crate)

    slots = max(1, min(harness.processes(), harness.free_memory() // ROOM_FOR_A_CRATE))
    # the toolchain takes no names of crates where CI is set
    is_apart = slots > 1 and "RT_JOBS" not in os.environ and os.environ.get("CI") != "true"
    with ThreadPoolExecutor(slots) as pool:
        def crate(name, has_two=True):
            # two processors for a crate end it sooner, and take a quarter more of their time
            how = os.environ if has_two else {**os.environ, "RT_JOBS": "1"}
            return pool.submit(lambda: run(PROOFS, how, see, name)[2])

        used, last = 0, []
        if is_apart:
            used = prove_below(LAST[0], slots, crate, progress.recorded["crates"])
            last.append(crate(LAST[0]))
            time.sleep(LEAD)
            last += [crate(name) for name in LAST[1:]]
        passed, failed, seconds = run(PROOFS, os.environ, see_last)
        seconds += used + sum(it.result() for it in last)
    progress.crates.clear()
    if not failed:
        proved.mark(begun)
    return passed, failed, seconds


def prove_below(crate, slots, begin, recorded):
    """Has each crate below this one proved by a run of its own as soon as those are that it uses, first the one with the longest chain of others
    behind it, by the recorded seconds; by two processors each where there are fewer crates than these to prove at the time, else by one. Gives
    the seconds of processors that this took. What is proved is kept for the run that proves all, which proves once more what failed."""
    uses, crates = programs.uses(), edits.crates_below(crate)

    def behind(name):
        return recorded.get(name, 0) + max((behind(it) for it in crates if name in uses[it]), default=0)

    left, running, used = sorted(crates, key=behind, reverse=True), {}, 0
    while left or running:
        ready = [it for it in left if not any(other in left or other in running.values() for other in uses[it])]
        is_any_idle = len(ready) + len(running) < harness.processes()
        for name in ready[: slots - len(running)]:
            left.remove(name)
            running[begin(name, is_any_idle)] = name
        for it in wait(running, return_when=FIRST_COMPLETED).done:
            running.pop(it)
            used += it.result()
    return used


class Lanes:
    """Runs tests side by side. What a test puts out is shown once it has ended."""

    def __init__(self, progress, lanes, words):
        self.progress, self.words = progress, words
        self.processes = str(max(1, harness.processes() // (1 if lanes == 1 else 2)))
        self.pool = ThreadPoolExecutor(lanes)
        self.by_make, self.shown, self.yielding = threading.Lock(), threading.Lock(), threading.Lock()
        self.built, self.missing = {}, {}
        self.environment = {**os.environ, "PROCESSES": self.processes}

    def build(self, needed, before=()):
        """Begins to build these programs without proofs."""
        for name in needed:
            if name not in self.built:
                self.built[name] = self.pool.submit(self.build_one, name, before)

    def build_one(self, name, before):
        words = [*before, sys.executable, f"{harness.TOP}/packaging/unproved.py", name]
        # beside the proofs one after the other: several take from these even where they yield
        with self.yielding if before else contextlib.nullcontext():
            begun = time.time()
            ran = subprocess.run(words, stdout=subprocess.PIPE, stderr=subprocess.STDOUT, text=True, errors="replace")
        with self.shown:
            print(f"-- built {name} without proofs in {time.time() - begun:.0f} s" if not ran.returncode else ran.stdout, flush=True)
        return ran.returncode == 0

    def test_beside(self, name):
        return self.test(name, {"PROCESSES": "1"}, YIELDING)

    def test(self, name, settings=(), before=()):
        begun, lines = time.time(), []
        if not all(self.built[it].result() for it in RUNS.get(name, ("tmpl",)) if it in self.built):
            came = 0, 1, 0
            lines.append("what it runs was not built")
        elif name in BY_MAKE:
            with self.by_make:
                came = run(name, self.environment, lines.append)
        else:
            # the longest test has all processors, so that it does not go on by itself
            settings = {"PROCESSES": str(harness.processes())} if name == "tried" else settings
            came = run(name, {**self.environment, **dict(settings)}, lines.append, self.words.get(name), before)
        with self.shown:
            for tool in dict.fromkeys(tools.missing_in(lines)):
                self.missing.setdefault(tool, []).append(name)
            print(f"== {name}", *lines, sep="\n")
            print(f"-- {self.progress.end_test(name)}; {name} took {time.time() - begun:.0f} s on the clock", flush=True)
        return came

    def run(self, names):
        """What each of these tests came to, by its name."""
        self.environment.update({it: os.environ[it] for it in programs.VARIABLES.values() if it in os.environ})
        futures = {name: self.pool.submit(self.test, name) for name in names}
        return {name: it.result() for name, it in futures.items()}


def chosen(names):
    """The tests of these names, of which one may be that of a folder."""
    folders = {it.partition(".")[0] for it in TESTS.values() if MODULE.match(it)}
    return [test for name in names for test in ([it for it in TESTS if TESTS[it].startswith(f"{name}.")] if name in folders else [name])]


def purpose(name):
    """What a test does: the first sentence of its script."""
    module = next((it for it in command(name) if it.startswith("tests.")), None)
    if module is None:
        return "Proves each crate from nothing by `rt ci`, and tries each mutant of must-fail/."
    return re.match(r'"""(.*?\.)(\s|""")', programs.read(f"{harness.TOP}/{module.replace('.', '/')}.py"), re.DOTALL)[1].replace("\n", " ")


def asked():
    """The words of the command line."""
    parser = argparse.ArgumentParser(prog="tests/run", description="Runs tests: what `make test` runs, or those that are named.")
    parser.add_argument("names", metavar="NAME", nargs="*", help="a test, by the name that --list gives, or a folder of them")
    parser.add_argument("-k", metavar="TEXT", help="only rows whose names hold the text")
    parser.add_argument("-j", metavar="N", type=int, help="how many checks and processes run side by side")
    parser.add_argument("--all", action="store_true", help="what `make prove` runs: the proofs, then all tests")
    parser.add_argument("--record", action="store_true", help="write down what each part took, for the times that later runs tell")
    parser.add_argument("--list", action="store_true", help="list the tests")
    parser.add_argument("--self", action="store_true", help="run the tests of the tests")
    given = parser.parse_args()
    given.names = chosen(given.names + ["judges"] * given.self)
    unknown = [it for it in given.names if it not in TESTS]
    if unknown:
        parser.error(f"there is no test {unknown[0]}: --list lists them")
    if given.k and not given.names:
        parser.error(f"-k wants the names of tests over rows: {' '.join(OVER_ROWS)}")
    return given


def choose_programs(names, is_quick):
    """Sets, for each program that the tests run, the build that they take, and says which; the names of those that are to be built."""
    needed = [it for it in programs.ALL if any(it in RUNS.get(name, ("tmpl",)) for name in names)]
    missing = []
    for name in needed:
        path = programs.path(name)
        is_chosen = programs.VARIABLES[name] in os.environ
        if not is_chosen and (is_quick or name in programs.OF_TESTS) and not programs.is_proved(name) and not programs.is_current(name):
            missing.append(name)
            path = programs.unproved(name)
        elif not is_chosen and is_quick:
            path = programs.proved(name) if programs.is_proved(name) else programs.unproved(name)
        os.environ[programs.VARIABLES[name]] = path
        print(f"{name}: {programs.kind(path)}" + ", to be built now" * (name in missing), flush=True)
    return missing


def told_missing(missing):
    """Names the tools that tests lacked; how many of these are there to be installed, where they are asked for."""
    told = ", ".join(f"{tool} ({', '.join(tests)})" for tool, tests in sorted(missing.items()))
    print(f"left out for want of {len(missing)} tools: {told or 'none'}")
    packages = sorted({tools.PACKAGES[it] for it in missing if it in tools.PACKAGES})
    if os.environ.get("RILPHONG_TOOLS") != "all" or not packages:
        return 0
    print(f"FAILED RILPHONG_TOOLS=all asks for what is missing: apt install {' '.join(packages)}")
    return len(packages)


def told_table(came):
    """The closing table: what each test came to, and which took longest."""
    for name, (passed, failed, seconds) in came.items():
        print(f"{name}: {passed} passed, {failed} failed, {seconds:.0f} s of processors" + f"; again by tests/run {name}" * bool(failed))
    slowest = sorted(came, key=lambda it: -came[it][2])[:SLOWEST]
    print("slowest: " + ", ".join(f"{it} {came[it][2]:.0f} s" for it in slowest))


def record(came, watch):
    """Writes down what each crate and each test took, in seconds of processors."""
    crates = {crate: round(60 * spent) for (crate, kind), spent in watch.minutes().items() if kind == "proof"}
    tests = {name: round(seconds, 1) for name, (_, _, seconds) in came.items() if name != PROOFS}
    told = {"day": datetime.date.today().isoformat(), "processors": harness.processes(), "crates": crates, "tests": tests}
    with open(TIMES, "w", encoding="utf-8") as it:
        it.write(json.dumps(told, indent=1, sort_keys=True) + "\n")


def prepare(given):
    """Puts what was asked for into the environment of the tests."""
    if given.k:
        os.environ["ROWS"] = given.k
        ignoring = [it for it in given.names if it not in OVER_ROWS]
        print(*(f"-k is ignored by {it}: it has no rows" for it in ignoring), sep="\n", end="\n" * bool(ignoring))
    if given.j:
        os.environ["PROCESSES"] = os.environ["RT_JOBS"] = str(given.j)


def main():
    given = asked()
    if given.list:
        print(*(f"{name:19} {'make test' if name in QUICK else 'make prove':11} {purpose(name)}" for name in TESTS), sep="\n")
        return 0
    prepare(given)
    names = list(TESTS) if given.all else given.names or list(QUICK)
    is_quick = not given.all and not given.names
    lanes = 1 if len(names) == 1 else harness.processes()
    progress, begun, watch, came = Progress(names, lanes), time.time(), processors.Watch(), {}
    words = dict(QUICK) if is_quick else {}
    its = Lanes(progress, lanes, words)
    beside = Beside(names, its)
    if PROOFS in names:
        its.build([it for it in (*programs.OF_TESTS, programs.LIBRARY) if not programs.is_current(it)], YIELDING)
        came[PROOFS] = prove(progress, beside)
        words["tried"] = " ".join(beside.end())
    its.build(choose_programs(names, is_quick))
    done = {PROOFS, *beside.begun} if words.get("tried", "all") else {PROOFS, "tried", *beside.begun}
    came.update(its.run([it for it in names if it not in done]))
    if PROOFS in came:
        came.update(beside.came(came.get("tried", (0, 0, 0))))
        print("== processors", *watch.table(), sep="\n")
    print("== in all")
    told_table(came)
    lacking = told_missing(its.missing)
    if given.record:
        record(came, watch)
    print(f"{time.time() - begun:.0f} s on the clock, on {harness.processes()} processors")
    if is_quick:
        print("These tests ran the programs over rows, random templates and documents. Nothing was proved: `make prove` proves all of it.")
    return harness.closing(sum(it[0] for it in came.values()), sum(it[1] for it in came.values()) + lacking)


if __name__ == "__main__":
    sys.exit(main())
