"""Counts the allocations of calls of functions and of templates. A call of a function, over arguments from JSON, takes one where it makes a
text that is not empty, and none elsewhere. It is the difference between many calls and fewer of the program that does one part of what `tmpl`
does, which takes no other memory between two calls. In the same way, that a share of a text that was made to be shared takes none. Then that a
template which reads a made text from a variable, as dot or as what it is called with takes no more for it than for a text of its own, which
shows that nothing is copied; and that a call of a template takes none: the cells of its variables are there."""
import json
import os
import subprocess
import sys
import tempfile

from tests.fault import sweep
from tests.lib import harness

FEWER, MORE = 100, 300  # calls
LONG = "a <b> & c/d=\"e\" " * 60
NESTED = {"b": [1, None, "x<y"], "a": {"k": "v" * 50, "": True}}

# those that `make bench` times
TIMED = [
    ("print", [1, True, "Ada"], 1),
    ("printf", ["%5d %-10s|", 42, "Ada"], 1),
    ("html", [LONG], 1),
    ("urlquery", [LONG], 1),
    ("eq", ["Ada", "Ada"], 0),
]

MAKERS = [
    ("print", [], 0),
    ("print", [None, -(2**63), False, True, NESTED, [NESTED, "a", "b"], "text"], 1),
    ("println", [], 1),
    ("println", [1, NESTED, LONG, None], 1),
    ("printf", ["plain"], 1),
    ("printf", ["100%% of 2026-11-22: %d", 7], 1),
    ("printf", ["%9999d|%-9999s|%9999q|%09999x", -1, "é", "\u200b", 255], 1),
    ("printf", ["%b %b", -(2**63), 2**63 - 1], 1),
    ("printf", ["%q%q", "\u0000\u0001\"\\" * 100, "\u200b\U000e0001é" * 100], 1),
    ("printf", ["%x %X", LONG, "\u0000ÿ"], 1),
    ("printf", ["%v %v %v %v", NESTED, None, True, LONG], 1),
    ("printf", ["%c%5c%t", 0x10FFFF, -1, False], 1),
    ("html", [], 0),
    ("html", ["\u0000<>\"'&" * 100], 1),
    ("html", [NESTED], 1),
    ("html", [None, 1, NESTED, [None], "<"], 1),
    ("urlquery", ["\u0000é /" * 100], 1),
    ("urlquery", [None, -1, NESTED, [True, False], "&"], 1),
]

OTHERS = [
    ("not", [NESTED], 0),
    ("len", [LONG], 0),
    ("index", [NESTED, "b", 2], 0),
    ("slice", [LONG, 3, 7], 0),
    ("slice", [[1, NESTED, 3], 1], 0),
    ("eq", [1, 2, 3, 1], 0),
    ("ne", ["a", "b"], 0),
    ("lt", ["a", "b"], 0),
    ("le", [1, 2], 0),
    ("gt", [1, 2], 0),
    ("ge", ["a", "b"], 0),
]


# texts that are made to be shared
SHARED = ["", "a", LONG * 9]

# templates over a list, with X for what makes a text
READERS = [
    "{{$x := X}}{{range .}}{{len $x}}{{end}}",
    "{{$x := 1}}{{$x = X}}{{range .}}{{len $x}}{{end}}",
    "{{if $x := X}}{{range $}}{{slice $x 1}}{{end}}{{end}}",
    "{{with X}}{{range $}}{{len $}}{{end}}{{.}}{{.}}{{end}}",
    "{{with $x := X}}{{range $}}{{$x}}{{end}}{{end}}",
    '{{define "t"}}{{.}}{{len $}}{{end}}{{$x := X}}{{range .}}{{template "t" $x}}{{end}}',
    '{{$x := X}}{{range .}}{{block "b" $x}}{{$y := .}}{{$y}}{{$}}{{end}}{{end}}',
]
# calls in a turn of a range
DEFINED = '{{define "t"}}{{.}}{{end}}{{define "u"}}{{$x := .}}{{$y := $x}}{{$x}}{{end}}{{define "v"}}{{template "t" .}}{{template "u"}}{{end}}'
CALLERS = [
    '{{template "t"}}',
    '{{template "t" .}}',
    '{{template "u" .}}',
    '{{block "b" .}}{{.}}{{end}}',
    '{{template "t" .}}{{template "u"}}',
    '{{template "v" .}}',
    '{{$x := .}}{{with $y := $x}}{{template "t" $y}}{{$x}}{{end}}',
]


def once(words, environment, keep):
    return subprocess.run(
        words,
        env={**os.environ, **environment},
        pass_fds=keep,
        stdout=subprocess.DEVNULL,
        stderr=subprocess.DEVNULL,
        timeout=harness.SECONDS,
    )


def allocations(shim, words):
    """How many allocations a process makes: the greatest number whose allocation can be refused."""
    low, high = 0, 1 << 24
    while low < high:
        middle = (low + high + 1) // 2
        _, refused = sweep.refusing(middle, shim, lambda more, keep: once(words, more, keep))
        low, high = (middle, high) if refused else (low, middle - 1)
    return low


def each(shim, runs):
    """The allocations of one of what two processes do, the one fewer and the other more times, or none where they do not."""
    if any(once(words, {}, ()).returncode for words in runs):
        return None
    fewer, more = (allocations(shim, words) for words in runs)
    return (more - fewer) / (MORE - FEWER)


def a_call(shim, folder, function, arguments):
    """The allocations of one call, or none where the calls are not answered."""
    file = f"{folder}/arguments"
    with open(file, "w", encoding="utf-8") as it:
        json.dump(arguments, it)
    return each(shim, [[harness.PROBE, "call", file, function, str(count)] for count in (FEWER, MORE)])


def a_share(shim, folder, text):
    """The allocations of one share of a text that was made to be shared, or none where it is not made or a share is another text."""
    file = f"{folder}/text"
    with open(file, "w", encoding="utf-8") as it:
        it.write(text)
    return each(shim, [[harness.PROBE, "share", file, str(count)] for count in (FEWER, MORE)])


def a_turn(shim, folder, template):
    """The allocations of one turn of a range, or none where the template is not rendered."""
    file = f"{folder}/template"
    with open(file, "w", encoding="utf-8") as it:
        it.write(template)
    runs = []
    for count in (FEWER, MORE):
        data = f"{folder}/list{count}"
        with open(data, "w", encoding="utf-8") as it:
            json.dump([7] * count, it)
        runs.append([harness.PROGRAM, "--data", data, file])
    return each(shim, runs)


def judge(shim, folder, function, arguments, wanted):
    taken = a_call(shim, folder, function, arguments)
    name = f"{function} {json.dumps(arguments)}"
    if taken is None:
        return name, 1, ["    it does not answer"]
    return name, 1, [] if taken == wanted else [f"    takes {taken:g} allocations a call, {wanted} wanted"]


def judge_share(shim, folder, text):
    taken = a_share(shim, folder, text)
    name = f"a share of a made text of {len(text)} bytes"
    if taken is None:
        return name, 1, ["    it is not shared"]
    return name, 1, [] if taken == 0 else [f"    takes {taken:g} allocations a share, none wanted"]


def judge_reader(shim, folder, reader):
    """The text is long, so that a copy of it is no part of a block that is there anyway."""
    held, made = (a_turn(shim, folder, reader.replace("X", what)) for what in (f'"{"a" * 999}"', f'(print "{"a" * 999}")'))
    if held is None or made is None:
        return reader, 1, ["    it is not rendered"]
    # lists of some lengths grow once more than others
    return reader, 1, [] if made <= held + 0.05 else [f"    a turn takes {made:g} allocations with a made text, {held:g} with another"]


def judge_caller(shim, folder, calls):
    taken = a_turn(shim, folder, DEFINED + "{{range .}}" + calls + "{{end}}")
    if taken is None:
        return calls, 1, ["    it is not rendered"]
    # the text that was put, and the cells, grow now and then
    return calls, 1, [] if taken <= 0.05 else [f"    takes {taken:g} allocations, none wanted"]


def main():
    if not harness.is_built(harness.PROBE):
        return harness.closing(0, 1)
    with tempfile.TemporaryDirectory() as folder:
        shim = f"{folder}/shim.so"
        sweep.build_shim("fail_alloc.c", shim)
        results = [judge(shim, folder, *row) for row in TIMED + MAKERS + OTHERS]
        results += [judge_share(shim, folder, it) for it in SHARED]
        results += [judge_reader(shim, folder, it) for it in READERS]
        results += [judge_caller(shim, folder, it) for it in CALLERS]
    passed, failed, _ = harness.tally(results)
    return harness.closing(passed, failed)


if __name__ == "__main__":
    sys.exit(main())
