"""Lists the code of small templates by the probe, and compares it with lists written by hand. They are listed with each allocation refused
in turn too; one of them is in docs/ARCHITECTURE.md. The proofs say which code is that of a tree; these lists show that what they say was
meant. A jump is listed by the place where it ends. How many bytes code takes no proof says."""
import os
import re
import subprocess
import sys
import tempfile

from tests.fault import sweep
from tests.lib import harness


# a template file of the name m, and the code of what it defines
OUT_OF_MEMORY = 7  # the status of the probe where memory is refused
ROWS = [
    (
        "x",
        """template "m"
        0 put "x" line 1
        1 return 0""",
    ),
    (
        "{{.a.b}}",
        """template "m"
        0 show .a.b line 1
        1 return 0""",
    ),
    (
        "{{$x := 1}}{{$x = 2}}{{$x}}",
        """template "m"
        0 spend line 1
        1 push 1
        2 settle
        3 hold
        4 spend line 1
        5 push 2
        6 settle
        7 set 0
        8 forget 1 -> 9
        9 show slot 0 line 1
        10 return 1""",
    ),
    # a value that decides passes over the other operands, and none decides after the last
    (
        "{{and .a 0 (len .b)}}",
        """template "m"
        0 spend line 1
        1 push .a
        2 and -> 8
        3 push 0
        4 and -> 8
        5 push .b
        6 call len 1
        7 settle
        8 settle
        9 show
        10 return 0""",
    ),
    # what is piped is the last argument, and lies below the others
    (
        '{{"a" | printf "%s%s" "b" | or}}',
        """template "m"
        0 spend line 1
        1 push "a"
        2 settle
        3 push "%s%s"
        4 push "b"
        5 call piped printf 2
        6 settle
        7 settle
        8 show
        9 return 0""",
    ),
    # slots count from the newest cell, so over the operands that are computed already
    (
        "{{print 1 $ (print $)}}{{(or .a $.b).c}}",
        """template "m"
        0 spend line 1
        1 push 1
        2 push slot 1
        3 push slot 2
        4 call print 1
        5 settle
        6 call print 3
        7 settle
        8 show
        9 spend line 1
        10 push .a
        11 or -> 14
        12 push slot 0
        13 chain .b
        14 settle
        15 chain .c
        16 settle
        17 show
        18 return 0""",
    ),
    (
        "{{if $x := .a}}{{$x}}{{else}}no{{end}}",
        """template "m"
        0 spend line 1
        1 push .a
        2 settle
        3 hold
        4 unless kept -> 7
        5 show slot 0 line 1
        6 forget 1 -> 9
        7 put "no" line 1
        8 forget 1 -> 9
        9 return 0""",
    ),
    # where nothing is to be forgotten or passed over, nothing ends a part
    (
        "{{if .a}}x{{end}}{{if .b}}y{{else}}z{{end}}",
        """template "m"
        0 spend line 1
        1 push .a
        2 settle
        3 unless -> 5
        4 put "x" line 1
        5 spend line 1
        6 push .b
        7 settle
        8 unless -> 11
        9 put "y" line 1
        10 forget 0 -> 12
        11 put "z" line 1
        12 return 0""",
    ),
    # a break out of a `with` forgets the dot that it saved, and goes after the range and its else part
    (
        "{{range .}}\n{{with .k}}{{break}}{{end}}{{else}}none{{end}}",
        r"""template "m"
        0 spend line 1
        1 push dot
        2 settle
        3 enter -> 14
        4 turn 0
        5 put "\n" line 1
        6 spend line 2
        7 push .k
        8 settle
        9 enter with -> 13
        10 spend line 2
        11 leave 1 -> 15
        12 end with 0 0 -> 13
        13 next 0 line 1 -> 15
        14 put "none" line 2
        15 return 0""",
    ),
    (
        "{{range $i, $e := .a}}{{with $x := $e}}{{continue}}{{end}}{{end}}",
        """template "m"
        0 spend line 1
        1 push .a
        2 settle
        3 enter key -> 15
        4 turn 2
        5 spend line 1
        6 push slot 0
        7 settle
        8 hold
        9 enter with kept -> 13
        10 spend line 1
        11 next 4 line 1 -> 15
        12 end with 0 1 -> 14
        13 forget 1 -> 14
        14 next 2 line 1 -> 15
        15 return 0""",
    ),
    # dot, a variable and a field of one are shown where they lie; a field of a field of a variable is not, nor is what is in parentheses
    (
        "{{range $r := .}}{{.}}{{$r.name}}{{$.a.b}}{{(.)}}{{end}}",
        """template "m"
        0 spend line 1
        1 push dot
        2 settle
        3 enter -> 18
        4 turn 1
        5 show dot line 1
        6 show slot 0 .name line 1
        7 spend line 1
        8 push slot 3
        9 chain .a.b
        10 settle
        11 show
        12 spend line 1
        13 push dot
        14 settle
        15 settle
        16 show
        17 next 1 line 1 -> 18
        18 return 0""",
    ),
    # a call of a template looks for the name first, then for a step and at the depth, then at what it hands on; it takes
    # its step where the template begins
    (
        '{{template "t" 1}}{{template "u"}}{{template "none"}}{{define "t"}}x{{end}}{{define "u"}}{{end}}',
        """template "t"
        0 put "x" line 1
        1 return 0
        template "u"
        2 return 0
        template "m"
        3 deepen line 1
        4 push 1
        5 settle
        6 invoke 0
        7 deepen line 1
        8 push nothing
        9 invoke 1
        10 spend line 1
        11 refuse template "none"
        12 return 0""",
    ),
    # what the form of a command refuses stands where the run would get to it
    (
        "{{len}}{{nil}}{{.a 1}}{{print len}}",
        """template "m"
        0 spend line 1
        1 refuse the count of len
        2 settle
        3 show
        4 spend line 1
        5 refuse nil
        6 settle
        7 show
        8 spend line 1
        9 refuse what is no function
        10 settle
        11 show
        12 spend line 1
        13 refuse the count of len
        14 call print 1
        15 settle
        16 show
        17 return 0""",
    ),
]


def shown():
    """The template whose code docs/ARCHITECTURE.md shows, and that code, without what is said of each line."""
    with open(f"{harness.TOP}/docs/ARCHITECTURE.md", encoding="utf-8") as it:
        template, *code = re.findall(r"^    ( *[0-9]+ .*|\{\{.*)$", it.read(), re.MULTILINE)
    return template, "\n".join(['template "m"', *(re.split("  +", line.strip())[0] for line in code)])


def listed(folder, template, more, keep):
    """The status, and the list of the code of a template file of the name m."""
    with open(f"{folder}/m", "w", newline="", encoding="utf-8") as file:
        file.write(template)
    ran = subprocess.run(
        [harness.PROBE, "list", "m"],
        cwd=folder,
        env={**os.environ, **more},
        pass_fds=keep,
        stdout=subprocess.PIPE,
        stderr=subprocess.DEVNULL,
        timeout=harness.SECONDS,
    )
    return ran.returncode, ran.stdout.decode()


def judge(shim, folder, template, code):
    """Compares the list, also with each allocation refused in turn: then there is the same list, or none and the status of want of memory."""
    wanted = "".join(line.strip() + "\n" for line in code.splitlines())

    def wrong(got, refused):
        if got == (0, wanted) or refused and got == (OUT_OF_MEMORY, ""):
            return []
        return [f"    status {got[0]}, and not the list that was wanted:", got[1]]

    return (template, *sweep.sweep(shim, lambda *how: listed(folder, template, *how), wrong))


def judge_size(folder, template, code):
    """Whether each instruction of the code takes 16 bytes."""
    wanted = 16 * sum(not line.strip().startswith("template") for line in code.splitlines())
    with open(f"{folder}/m", "w", newline="", encoding="utf-8") as file:
        file.write(template)
    told = subprocess.run([harness.PROBE, "code", "m"], cwd=folder, stdout=subprocess.PIPE, timeout=harness.SECONDS).stdout.decode()
    wrong = [] if told == f"{wanted}\n" else [f"    the code takes {told.strip()} bytes, and not {wanted}"]
    return f"{template}, its size", 0, wrong


def main():
    if not harness.is_built(harness.PROBE):
        return harness.closing(0, 1)
    with tempfile.TemporaryDirectory() as folder:
        shim = f"{folder}/shim.so"
        sweep.build_shim("fail_alloc.c", shim)
        rows = [*ROWS, shown()]
        judged = [judge(shim, folder, *row) for row in rows] + [judge_size(folder, *row) for row in rows]
        passed, failed, runs = harness.tally(judged)
    print(f"{runs} allocations were refused, one in each run")
    return harness.closing(passed, failed)


if __name__ == "__main__":
    sys.exit(main())
