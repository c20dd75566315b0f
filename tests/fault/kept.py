"""Calls the command a thousand times in one process, for each way in which it may end, and counts the memory that is left. By the probe:
every block that a call took is given back, and the process does not grow. So it is where an allocation of a call is refused, for each in
turn."""
import os
import struct
import subprocess
import sys
import tempfile
from typing import NamedTuple, Optional

from tests.fault import sweep
from tests.lib import harness

FEW, MANY = 10, 1000  # calls
SLACK = 1024  # kilobytes by which many calls may take more than few, so a hundredth of what the texts of all of them are
LONG = "text " * 20000
FILES = {
    "m": "Hello, {{.name}}!{{range .list}}{{.}},{{else}}none{{end}}",
    "made": '{{$x := printf "%q" .name}}{{$x}}{{define "t"}}{{html .}}{{end}}{{template "t" $x}}',
    "long": LONG + "{{.}}" + LONG + '{{define "d"}}' + LONG + '{{end}}{{block "b" .}}' + LONG + "{{end}}",
    "again": '{{define "d"}}new{{end}}',
    "fault": LONG + "{{.name.first}}",
    "open": LONG + "{{if .}}" + LONG,
    "none": LONG + "{{nofun}}",
    "twice": '{{define "t"}}1{{end}}{{define "t"}}2{{end}}' + LONG,
    "data": '{"name": "Ada", "list": [1, null, {"a": ["b"]}]}',
    "float": '{"list": [1, 2, {"a": 1.5}]}',
    "bad": '{"list": [1, 2, {"a": "b"',
}
TEXT = "Hello, Ada!1,<nil>,map[a:[b]],"
USAGE = (
    "usage: tmpl [--data FILE] [--missingkey default|invalid|zero|error] [--name NAME] [--depth N] [--steps N] [--print] FILE...\n"
)
# the words, what is put out, what is said and the status of one call
CALLS = [
    (["--help"], USAGE, "", 0),
    (["--data", "data", "m"], "Hello, Ada!1,<no value>,map[a:[b]],", "", 0),
    (["--data", "data", "made"], '"Ada"&#34;Ada&#34;', "", 0),
    (["long"], LONG + "<no value>" + LONG * 2, "", 0),
    (["--name", "d", "long", "again"], "new", "", 0),
    (["--print", "m", "again"], None, "", 0),
    (["--data", "data", "fault"], LONG, 'tmpl: fault:1: in "fault": no field "first" here\n', 1),
    ([], "", "tmpl: arguments refused; see tmpl --help\n", 2),
    (["long", "nowhere"], "", "tmpl: nowhere: read failed\n", 3),
    (["--data", "nowhere", "long"], "", "tmpl: nowhere: read failed\n", 3),
    (["long", "open"], "", None, 4),
    (["none"], "", None, 4),
    (["long", "twice"], "", "tmpl: twice:1: second definition\n", 4),
    (["--name", "nobody", "long"], "", 'tmpl: no template "nobody"\n', 4),
    (["--data", "bad", "long"], "", None, 5),
    (["--data", "float", "long"], "", "tmpl: float: number not whole or out of range\n", 5),
]
FULL = ["--data", "data", "m"]  # the words of calls whose output fails
OUT_OF_MEMORY = 7  # the status of the probe where memory is refused outside the call
QUIET = 50  # refused allocations that change nothing, before one that does: then nothing is refused at all
REFUSED = [["--data", "data", "m"], ["--data", "data", "made"], ["--print", "m"], ["m", "twice"], ["--data", "bad", "m"]]


class Came(NamedTuple):
    """The output and the errors of calls, the kilobytes that their process took, the blocks that were left, and its status."""

    out: bytes
    err: bytes
    size: int
    left: Optional[int]
    status: int


def often(folder, words, times, shim=None, refused=0, out=subprocess.PIPE):
    """What came of a process of this many calls: under the shim also the blocks that were left at its end."""
    environment, keep, (read, write) = dict(os.environ), (), os.pipe()
    if shim:
        keep = (write,)
        environment |= {"LD_PRELOAD": shim, "KEPT_FD": str(write), "FAIL_ALLOC": str(refused)}
    try:
        with tempfile.TemporaryFile() as told, tempfile.TemporaryFile() as said:
            process = subprocess.Popen(
                [harness.PROBE, "often", str(times), "tmpl", *words],
                cwd=folder,
                env=environment,
                pass_fds=keep,
                stdout=told if out == subprocess.PIPE else out,
                stderr=said,
            )
            _, ended, usage = os.wait4(process.pid, 0)
            process.returncode = os.waitstatus_to_exitcode(ended)
            told.seek(0)
            said.seek(0)
            texts = told.read(), said.read()
    finally:
        os.close(write)
        with os.fdopen(read, "rb") as it:
            left = it.read()
    return Came(*texts, usage.ru_maxrss, struct.unpack("l", left)[0] if left else None, process.returncode)


def judge(shim, folder, words, text, line, status):
    """That each call ends in the same way, and that many of them leave what none leaves."""
    name = f"tmpl {' '.join(words)}"
    end = f"status {status}\n".encode()
    wrong = []
    none = often(folder, words, 0, shim).left
    for times in (1, MANY):
        came = often(folder, words, times, shim)
        if came.status or text is not None and came.out != text.encode() * times:
            wrong.append(f"    {times} calls put out {len(came.out)} bytes, and the process ended with {came.status}")
        if line is not None and came.err != (line.encode() + end) * times or came.err.count(end) != times:
            wrong.append(f"    {times} calls said {came.err[:100]!r}")
        if came.left is None or came.left != none:
            wrong.append(f"    {times} calls left {came.left} blocks, {none} without them")
    few, many = (often(folder, words, times).size for times in (FEW, MANY))
    if many > few + SLACK:
        wrong.append(f"    {MANY} calls took {many} kB, {FEW} calls {few} kB")
    return name, 1, wrong


def judge_full(shim, folder):
    """The same where each write of the output fails."""
    with open("/dev/full", "wb") as full:
        none = often(folder, FULL, 0, shim, out=full).left
        came = often(folder, FULL, MANY, shim, out=full)
    wrong = [] if came.err == b"tmpl: write failed\nstatus 6\n" * MANY else [f"    they said {came.err[:100]!r}"]
    return "a full device", 1, wrong + [f"    left {came.left} blocks, {none} without calls"] * (came.left is None or came.left != none)


def judge_refused(shim, folder, words):
    """The same where one allocation is refused, for each of them. The call answers that memory was refused, or the probe ends so before
    it, up to the first number that is no allocation: then the call does what it ever does."""
    none, usual = often(folder, words, 0, shim).left, often(folder, words, 1, shim)
    wrong, ends, quiet = [], 0, 0
    for number in range(1, sweep.MOST):
        came = often(folder, words, 1, shim, number)
        if came.status == 0 and came.err.endswith(b"tmpl: out of memory\nstatus 7\n"):
            ends += 1
            if came.left is None or came.left != none:
                wrong.append(f"    with allocation {number} refused {came.left} blocks were left, {none} without the call")
        elif came.status != OUT_OF_MEMORY:
            wrong += [] if came[:2] == usual[:2] else [f"    with allocation {number} refused it came to {came.status}, {came.err[:100]!r}"]
            quiet += 1
            if ends or quiet == QUIET:
                break
    return f"tmpl {' '.join(words)}, refused", ends, wrong if ends > 9 else ["    hardly an allocation was refused"]


def main():
    if not harness.is_built(harness.PROBE):
        return harness.closing(0, 1)
    with tempfile.TemporaryDirectory(dir=harness.MEMORY) as folder:
        shim = f"{folder}/shim.so"
        sweep.build_shim("fail_alloc.c", shim)
        for name, text in FILES.items():
            with open(f"{folder}/{name}", "w", encoding="utf-8") as it:
                it.write(text)
        results = [judge(shim, folder, *call) for call in CALLS]
        results.append(judge_full(shim, folder))
        results += [judge_refused(shim, folder, words) for words in REFUSED]
    passed, failed, _ = harness.tally(results)
    return harness.closing(passed, failed)


if __name__ == "__main__":
    sys.exit(main())
