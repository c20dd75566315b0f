"""Tries inputs that strangers choose: each must get its line and exit status, and cost little. They are files that do not end or are far
too long, lines of many programs on one error stream, what nests as deep as it may on a small stack of the machine, what may call itself as
deep as it may, and names that a known hash does not tell apart; the keys of the hash are drawn from the system; standard input that has no
name which the system opens, as a socket; and what has many parts of a kind is checked against a schema on a small stack. TMPL=PATH and
TMPL_CHECK=PATH name other builds."""
import json
import os
import resource
import socket
import subprocess
import sys
import tempfile
import threading

from tests.lib import harness

AT_ONCE = 8
LINES = 10000
LEVELS = 500
PARENTHESES = 100
NESTING = 127
STACK = 512 << 10  # bytes
ALIKE = (20000, 40000, 80000)  # definitions
TWICE = 2  # times as long as with other names they may take
NOISE = 0.1  # seconds
LEAST = 78  # cases
TEXT = {"type": "string"}
COMPLEX = "error: may fail: it is too complex for this check"
PARTS = (5000, 100000)
CALLED = 11_000  # templates that call one another that a check follows; it has a limit of 12,000
FEW = 64 << 20  # bytes of memory that a refused file may take
SOME = 300 << 20
DEEPEST = "100000"  # levels of calls
TOUCHED = 1 << 10  # kB that a run may touch more where it may go deep and does not
TOO_LONG = "file longer than 16777216 bytes"


def limited(**limits):
    """What sets limits of the process before the program starts."""
    return lambda: [resource.setrlimit(getattr(resource, f"RLIMIT_{name}"), (size, size)) for name, size in limits.items()]


def ran(words, folder, **limits):
    done = subprocess.run(
        [harness.PROGRAM, *words],
        cwd=folder,
        stdin=subprocess.DEVNULL,
        stdout=subprocess.PIPE,
        stderr=subprocess.PIPE,
        preexec_fn=limited(**limits),
        timeout=harness.SECONDS,
    )
    return done.returncode, done.stdout.decode(), done.stderr.decode()


def endless(folder):
    """A template is read no further than it may be long; data, which have no limit, until memory is refused."""
    with open(f"{folder}/long", "wb") as file:
        file.truncate(200 << 20)
    for name in ("/dev/zero", "long"):
        yield f"the template {name}", (4, "", f"tmpl: {name}:1: {TOO_LONG}\n"), ran([name], folder, AS=FEW)
    with open(f"{folder}/m", "w") as file:
        file.write("x")
    yield "data that do not end", (7, "", "tmpl: out of memory\n"), ran(["--data", "/dev/zero", "m"], folder, AS=SOME)


def shared(folder):
    """Lines of programs that run at once, on one pipe: none is mixed with another."""
    names = [f"{'n' * k}" for k in range(1, AT_ONCE + 1)]
    told = {}
    for k, name in enumerate(names):
        with open(f"{folder}/{name}", "w") as file:
            file.write("\n" * k + '{{.a\u0007"b' if k % 2 else '{{template "\\x01\\x02\\u00a0' + "q" * 20 * k + '"}}')
        reason = "unclosed or unreadable action" if k % 2 else f'no template "\\x01\\x02\\u00a0{"q" * 20 * k}"'
        told[name] = f"tmpl: {name}:{k + 1}: {reason}\n" if k % 2 else f'tmpl: {name}:1: in "{name}": {reason}\n'
    reader, writer = os.pipe()
    each = LINES // AT_ONCE
    loop = f'i=0; while [ $i -lt {each} ]; do "$0" "$1"; i=$((i + 1)); done'
    running = [
        subprocess.Popen(["sh", "-c", loop, harness.PROGRAM, name], cwd=folder, stdout=subprocess.DEVNULL, stderr=writer)
        for name in names
    ]
    os.close(writer)
    with open(reader, encoding="utf-8", errors="replace") as pipe:
        lines = pipe.readlines()
    for it in running:
        it.wait()
    counts = {line: lines.count(line) for line in set(lines)}
    yield f"{LINES} lines of {AT_ONCE} programs at once", {line: each for line in told.values()}, counts


def deepest():
    """Files that nest as deep as they may, each with what it puts out."""
    for header in ("if .", "with .", "range $"):
        yield f"{LEVELS} levels of {header}", f"{{{{{header}}}}}" * LEVELS + "x" + "{{end}}" * LEVELS, "1", "x"
    for branch in ("if", "with"):
        chain = f"{{{{{branch} .a}}}}" + f"{{{{else {branch} .a}}}}" * (LEVELS - 1) + "{{else}}x{{end}}"
        yield f"{LEVELS} levels of else {branch}", chain, "{}", "x"
    blocks = "".join(f'{{{{block "{n}" .}}}}' for n in range(LEVELS))
    yield f"{LEVELS} levels of block", blocks + "x" + "{{end}}" * LEVELS, "1", "x"
    yield f"{PARENTHESES} parentheses", "{{" + "(" * PARENTHESES + "1" + ")" * PARENTHESES + "}}", "1", "1"
    calls = '{{define "t"}}{{if .}}{{template "t" (slice . 1)}}{{end}}{{end}}{{template "t" (printf "%1000s" "")}}x'
    yield "a thousand calls", calls, "1", "x"
    nested = "[" * NESTING + "]" * NESTING
    yield f"data of {NESTING} levels", "{{.}}", nested, nested


def stacked(folder):
    """What nests is rendered, printed, and read again as it was printed, on a small stack."""
    for name, template, data, out in deepest():
        for path, text in (("m", template), ("d", data)):
            with open(f"{folder}/{path}", "w") as file:
                file.write(text)
        words = ["--data", "d", "--depth", "1002", "m"]
        yield name, (0, out, ""), ran(words, folder, STACK=STACK)
        status, printed, err = ran(["--print", "m"], folder, STACK=STACK)
        yield f"{name}, printed", (0, ""), (status, err)
        with open(f"{folder}/m", "w") as file:
            file.write(printed)
        again = ran(["--print", "m"], folder, STACK=STACK)
        yield f"{name}, printed and read", (0, ""), (again[0], again[2])


def resident(words, folder):
    """What the program answers, and the most memory that it had in use, in kB."""
    with subprocess.Popen([harness.PROGRAM, *words], cwd=folder, stdin=subprocess.DEVNULL, stdout=subprocess.PIPE, stderr=subprocess.PIPE) as running:
        out, err = running.stdout.read(), running.stderr.read()
        _, status, usage = os.wait4(running.pid, 0)
        running.returncode = os.waitstatus_to_exitcode(status)
    return (running.returncode, out.decode(), err.decode()), usage.ru_maxrss


def deep(folder):
    """Templates that may call themselves as deep as it may be, and do so twice: they touch no more memory than where the limit is small."""
    kept = "".join("{{$v%d := .}}" % it for it in range(60))
    for name, rest in (("alone", ""), ("with 60 variables", kept), ("in each other's place", '{{template "other" .}}')):
        template = '{{define "t"}}%s{{with .kid}}({{template "t" .}}){{end}}{{end}}{{define "other"}}{{with .no}}{{template "t" .}}{{end}}{{end}}' % rest
        for path, text in (("m", template + '{{template "t" .}}'), ("d", '{"kid": {"kid": {}}}')):
            with open(f"{folder}/{path}", "w", encoding="ascii") as file:
                file.write(text)
        (few, least), (many, most) = (resident(["--data", "d", "--depth", depth, "m"], folder) for depth in ("10", DEEPEST))
        more = "little more memory" if most <= least + TOUCHED else f"{most} kB, beside {least} kB"
        yield f"a template that may call itself, {name}", ((0, "()", ""), (0, "()", ""), "little more memory"), (few, many, more)


def defining(names):
    """A file that defines a template of each name, and runs the last."""
    return b"".join(b"{{define `%s`}}x{{end}}" % name for name in names) + b"{{template `%s`}}" % names[-1]


def alike(count):
    """Names that the standard library's quick hash does not tell apart: it multiplies bytes 9 to 16 of a name, with what they
    are here changed to nothing, into what the first eight bytes left."""
    multiplier = 0x9E3779B97F4A7C15.to_bytes(8, "little")
    return [b"%08d" % k + multiplier + b"one tail" for k in range(count)]


def seconds(folder, text):
    """What the program puts out of a file, and the least processor time of three runs."""
    with open(f"{folder}/m", "wb") as file:
        file.write(text)
    times = []
    for _ in range(3):
        before = resource.getrusage(resource.RUSAGE_CHILDREN)
        got = ran(["m"], folder)
        after = resource.getrusage(resource.RUSAGE_CHILDREN)
        times.append(after.ru_utime + after.ru_stime - before.ru_utime - before.ru_stime)
    return got, min(times)


def colliding(folder):
    """Names of one hash are defined about as fast as others."""
    for count in ALIKE:
        others = [b"%08d and the other tail." % k for k in range(count)]
        wanted, usual = seconds(folder, defining(others))
        got, time = seconds(folder, defining(alike(count)))
        yield f"{count} names of one hash", (0, "x", "", wanted), (*got, got)
        slow = time > TWICE * usual + NOISE
        yield f"{count} names of one hash, their time", "at most twice that of others", (
            f"{time:.2f} seconds, others {usual:.2f}" if slow else "at most twice that of others"
        )


def drawn(folder):
    """The keys by which names are hashed are 16 random bytes of the system; where it has none to give the answer is the same."""
    shim = f"{folder}/draw_keys.so"
    harness.build_shim("draw_keys.c", shim)
    with open(f"{folder}/m", "w") as file:
        file.write("{{$x := 1}}{{template `t` $x}}{{define `t`}}{{.}}{{end}}")
    for name, more in (("random bytes", {}), ("no random bytes", {"KEYS_FAIL": "1"})):
        reader, writer = os.pipe()
        environment = {**os.environ, "LD_PRELOAD": shim, "KEYS_FD": str(writer), **more}
        done = subprocess.run([harness.PROGRAM, "m"], cwd=folder, env=environment, pass_fds=[writer], stdout=subprocess.PIPE, stderr=subprocess.PIPE)
        os.close(writer)
        with open(reader, "rb") as pipe:
            asked = len(pipe.read())
        yield f"keys of {name}", (0, b"1", b"", True), (done.returncode, done.stdout, done.stderr, asked == 16 or more and asked > 0)


def from_socket(words, folder, given):
    """What the program answers that has one end of a pair of sockets as its standard input, and the bytes that were left."""
    ours, its = socket.socketpair()

    def give():
        try:
            ours.sendall(given)
            ours.shutdown(socket.SHUT_WR)
        except (BrokenPipeError, ConnectionResetError):
            pass  # it reads no further

    giver = threading.Thread(target=give)
    giver.start()
    how = {"cwd": folder, "stdin": its, "stdout": subprocess.PIPE, "stderr": subprocess.PIPE, "timeout": harness.SECONDS}
    done = subprocess.run([harness.PROGRAM, *words], **how)
    its.close()
    giver.join()
    ours.close()
    return done.returncode, done.stdout.decode(), done.stderr.decode()


def inputs(folder):
    """Standard input as it is handed on: a socket, the rest of a file, nothing."""
    for name, text in (("m", "a {{.x}} b"), ("d", '{"x": 7}'), ("rest", 'a line\n{"x": 8}')):
        with open(f"{folder}/{name}", "w", encoding="ascii") as file:
            file.write(text)
    many = b'{"x": "' + b"y" * 300000 + b'"}'
    yield "data from a socket", (0, "a 7 b", ""), from_socket(["--data", "/dev/stdin", "m"], folder, b'{"x": 7}')
    yield "300 kB from a socket", (0, f"a {'y' * 300000} b", ""), from_socket(["--data", "/dev/stdin", "m"], folder, many)
    yield "a template from a socket", (0, "7!", ""), from_socket(["--data", "d", "/dev/stdin"], folder, b"{{.x}}!")
    too_long = (4, "", f"tmpl: /dev/stdin:1: {TOO_LONG}\n")
    yield "too long a template from a socket", too_long, from_socket(["/dev/stdin"], folder, b"x" * 16777218)
    yield "a socket is read once", (5, "", "tmpl: /dev/stdin: not JSON\n"), from_socket(["--data", "/dev/stdin", "/dev/stdin"], folder, b"7")
    yield "a socket by another name", (3, "", "tmpl: /dev/fd/0: read failed\n"), from_socket(["--data", "/dev/fd/0", "m"], folder, b"7")
    how = {"cwd": folder, "stdout": subprocess.PIPE, "stderr": subprocess.PIPE, "timeout": harness.SECONDS}
    words = [harness.PROGRAM, "--data", "/dev/stdin", "m"]
    with open(f"{folder}/rest", "rb", buffering=0) as file:
        file.read(len("a line\n"))
        done = subprocess.run(words, stdin=file, **how)
    yield "the rest of a file", (0, b"a 8 b", b""), (done.returncode, done.stdout, done.stderr)
    done = subprocess.run(words, stdin=subprocess.DEVNULL, preexec_fn=lambda: os.close(0), **how)
    yield "no standard input", (3, b"", b"tmpl: /dev/stdin: read failed\n"), (done.returncode, done.stdout, done.stderr)


def called(count):
    """So many templates that call one another."""
    chain = "".join('{{define "t%d"}}{{template "t%d" .}}{{end}}' % (number, number + 1) for number in range(count))
    return f'{chain}{{{{define "t{count}"}}}}x{{{{end}}}}{{{{template "t0" .}}}}'


def many(count):
    """Templates of so many parts of a kind, each with what is told where they are more than a check goes down to."""
    yield "operands of and", "{{and" + " 1" * count + "}}", COMPLEX
    yield "operands of or", "{{or" + " $.a" * count + "}}", COMPLEX
    yield "guards of and", "{{if and" + " .a" * count + "}}x{{end}}", COMPLEX
    yield "operands of print", "{{print" + " 1" * count + "}}", COMPLEX
    yield "operands of eq", "{{eq" + " 1" * count + "}}", COMPLEX
    yield "keys of index", "{{index ." + ' "a"' * count + "}}", COMPLEX
    yield "commands", "{{1" + "|print" * count + "}}", COMPLEX
    yield "fields", "{{if ." + ".".join(["a"] * count) + "}}x{{end}}", COMPLEX
    yield "variables", "{{$x:=1}}" * count, COMPLEX
    yield "assignments", "{{$x:=1}}" + "{{$x =1}}" * count, ""
    for number in (count // 5, min(count // 5, CALLED)):
        yield f"templates, {number}", called(number), "" if number <= CALLED else COMPLEX


def nested(levels, inner):
    """A schema of maps in maps, so deep."""
    for _ in range(levels):
        inner = {"type": "object", "required": ["a"], "properties": {"a": inner}}
    return inner


def levels(folder):
    """A schema is read down a small stack as deep as CHECK says, with a definition that `allOf` looks up; deeper it is refused."""
    def looked_up(depth):
        return {**nested(depth, {"allOf": [{"$ref": "#/$defs/b"}, {"required": ["x"]}]}), "$defs": {"b": nested(depth, TEXT)}}
    items = TEXT
    for _ in range(88):
        items = {"items": items}
    for name, schema, is_read in (("items", items, True), ("items", {"items": {"items": items}}, False), ("maps", nested(60, TEXT), True),
                                  ("maps that are looked up", looked_up(40), True), ("maps that are looked up", looked_up(60), False),
                                  ("parts", {"allOf": [nested(60, TEXT), nested(60, TEXT)]}, True)):
        for file, text in (("s", json.dumps(schema)), ("m", "x")):
            with open(f"{folder}/{file}", "w", encoding="ascii") as out:
                out.write(text)
        done = subprocess.run([harness.CHECKER, "--schema", "s", "m"], cwd=folder, stdin=subprocess.DEVNULL, capture_output=True, preexec_fn=limited(STACK=STACK), timeout=harness.SECONDS)
        said = done.stdout.decode()
        wanted = (0, "") if is_read else (1, "too many levels")
        yield f"levels of {name}, {'read' if is_read else 'refused'}", wanted, (done.returncode, "too many levels" if said.endswith(": too many levels\n") else said)


def parts(folder):
    """A check against a schema goes down a small stack no further than it has room: the rest is refused as too complex."""
    with open(f"{folder}/s", "w", encoding="ascii") as file:
        json.dump({"type": "object", "properties": {"a": {"type": "string"}}, "required": ["a"], "additionalProperties": False}, file)
    for count in PARTS:
        for name, template, said in many(count):
            with open(f"{folder}/m", "w", encoding="ascii") as file:
                file.write(template)
            words = [harness.CHECKER, "--schema", "s", "m"]
            done = subprocess.run(words, cwd=folder, stdin=subprocess.DEVNULL, capture_output=True, preexec_fn=limited(STACK=STACK), timeout=harness.SECONDS)
            told = "".join(line.partition(" ")[2] for line in done.stdout.decode().splitlines() if ": error: " in line)
            yield f"{count} {name}, checked", (1 if said else 0, said, b""), (done.returncode, told, done.stderr)


def main():
    if not harness.is_built():
        return 1
    passed, failed = 0, []
    with tempfile.TemporaryDirectory(dir=harness.MEMORY) as folder:
        for test in (endless, shared, stacked, deep, colliding, drawn, inputs, levels, parts):
            for name, wanted, got in test(folder):
                if wanted == got:
                    passed += 1
                else:
                    failed.append(f"{name}:\n    wanted {str(wanted)[:300]}\n    got    {str(got)[:300]}")
    if passed + len(failed) < LEAST:
        failed.append(f"only {passed + len(failed)} cases, of at least {LEAST}")
    print(*failed, f"{passed} passed, {len(failed)} failed", sep="\n")
    return 1 if failed else 0


if __name__ == "__main__":
    sys.exit(main())
