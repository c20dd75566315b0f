"""Renders random templates by the built program and by Go's own text/template, and compares what they put out. Needs Go.

    compare.py [COUNT] [SEED]

Of each four one is a set of one to three files, drawn along with its data, so that many runs end well and the others fault
somewhere in the middle; one is a heap of braces, markers, comments and quotes; one is a constant, spelled well or
nearly so; and one is a heap of controls, definitions, blocks and calls. What is drawn is what both have: where a rule is narrower than Go's or our own, it is left out. Texts must be
equal up to the fault, if there is one, and both must refuse the template, fault, or neither."""
import base64
import glob
import json
import os
import random
import re
import shutil
import subprocess
import sys
import tempfile

from tests.lib import harness

HERE = os.path.dirname(os.path.abspath(__file__))
KEYS = ["a", "b", "name", "Items", "x_1", "é"]
WORDS = ["", "a", "Ada", "x<y & \"z\"", "é→", "two words", "tab\there", "'quote'", "0", "long " * 5, "line\nbreak"]
NUMBERS = [0, 1, -1, 7, 42, 255, -255, 1000, 2**31, 2**63 - 1, -(2**63)]
TEXTS = [" ", "\n", "a", "text ", "  \n\t", "{ ", "}", "} }", "é", "<b>", "\r\n", "x" * 40, "{ { ", "-"]
ODDS_OF_A_FAULT = 0.02
# Names of templates. Each calls none but later ones, so that no run goes on for ever.
TEMPLATES = ["t0", "t1", "t2", "t3"]
# a range over a number goes on for as long as the number says
STEPS = "100000"


class Drawing:
    """Draws a set of files with its data. A value that an expression has is known as a sample, of the first element of a
    range for example, and steers what is drawn next; it need not be the value of each run through there."""

    def __init__(self, seed):
        self.random = random.Random(seed)
        self.data = self.value(4, "map")
        self.scopes = []
        self.loops = 0
        # the template that is drawn, the own one of a file at first, and those that the file has
        self.level = -1
        self.defined = set()
        self.dots = [self.random.choice(self.paths(self.data))[1] for _ in TEMPLATES]

    # ---- data

    def value(self, depth, kind=None):
        r = self.random
        kind = kind or r.choice(["text", "number", "truth", "null", "list", "map", "list", "map"] if depth > 0 else ["text", "number", "truth"])
        if kind == "text":
            return r.choice(WORDS)
        if kind == "number":
            return r.choice(NUMBERS) if r.random() < 0.4 else r.randrange(10)
        if kind == "truth":
            return r.random() < 0.5
        if kind == "null":
            return None
        if kind == "list":
            of = r.choice(["text", "number", "map", None])
            return [self.value(depth - 1, of) for _ in range(r.randrange(5) * (depth > 0))]
        return {key: self.value(depth - 1) for key in r.sample(KEYS, r.randrange(1, len(KEYS)) * (depth > 0))}

    # ---- expressions: each gives its spelling and a sample of its value

    def kind(self, value):
        return {type(None): "null", bool: "truth", int: "number", str: "text", list: "list", dict: "map"}[type(value)]

    def paths(self, dot):
        """What chains of fields from dot and from variables come to."""
        found = [(".", dot)]
        found += [(f"${name}", value) for name, value in self.names().items()]
        for spelled, value in list(found):
            self.walk("" if spelled == "." else spelled, value, found, 3)
        return found

    def walk(self, spelled, value, found, depth):
        if isinstance(value, dict) and depth:
            for key, held in value.items():
                found.append((f"{spelled}.{key}", held))
                self.walk(f"{spelled}.{key}", held, found, depth - 1)

    def names(self):
        return {name: value for scope in self.scopes for name, value in scope}

    def constant(self, kind):
        r = self.random
        if kind == "number":
            n = self.value(0, "number")
            small = 0 <= n < 200
            return r.choice([str(n), f"{n:#x}" if n >= 0 else str(n), f"+{n}" if n >= 0 else str(n), f"'{chr(n)}'" if small and chr(n).isalnum() else str(n)]), n
        if kind == "truth":
            value = r.random() < 0.5
            return "true" if value else "false", value
        value = r.choice(WORDS)
        if "`" not in value and r.random() < 0.3:
            return f"`{value}`", value
        return json.dumps(value, ensure_ascii=r.random() < 0.5), value

    def wanted(self, dot, kind, depth):
        """An operand of this kind."""
        r = self.random
        there = [it for it in self.paths(dot) if self.kind(it[1]) == kind]
        if r.random() < ODDS_OF_A_FAULT:
            return r.choice(self.paths(dot))
        if there and r.random() < 0.6:
            return r.choice(there)
        if kind in ("number", "truth", "text") and (not depth or r.random() < 0.4):
            return self.constant(kind)
        if depth and kind in ("number", "truth", "text", "list"):
            spelled, value = self.call(dot, kind, depth - 1)
            if spelled:
                return f"({spelled})", value
        if there:
            return r.choice(there)
        return self.constant(kind) if kind in ("number", "truth", "text") else r.choice(self.paths(dot))

    def call(self, dot, kind, depth):
        """A call that gives this kind, as a whole command or pipeline."""
        return {"number": self.number_call, "truth": self.truth_call, "text": self.text_call, "list": self.list_call}[kind](dot, depth)

    def number_call(self, dot, depth):
        r = self.random
        spelled, value = self.wanted(dot, r.choice(["text", "list", "map"]), depth)
        if self.kind(value) not in ("text", "list", "map"):
            if r.random() > ODDS_OF_A_FAULT:
                spelled = '"x"'
            return f"len {spelled}", 1
        if r.random() < 0.3 and isinstance(value, (str, list)) and value:
            i = r.randrange(len(value)) if r.random() > ODDS_OF_A_FAULT else len(value) + 20
            held = value[i] if isinstance(value, list) and i < len(value) else 1
            return f"index {spelled} {i}", held
        return r.choice([f"len {spelled}", f"{spelled} | len"]) if not isinstance(value, dict) else f"len {spelled}", len(value)

    def truth_call(self, dot, depth):
        r = self.random
        choice = r.randrange(5)
        if choice == 0:
            spelled, value = self.wanted(dot, r.choice(["truth", "number", "text", "null"]), depth)
            return f"not {spelled}", not value
        if choice == 1:
            operands = [self.wanted(dot, "truth", depth) for _ in range(r.randrange(1, 4))]
            return f"{r.choice(['and', 'or'])} " + " ".join(it[0] for it in operands), operands[-1][1]
        kind = r.choice(["number", "text"])
        name = r.choice(["eq", "ne", "lt", "le", "gt", "ge", "eq"])
        operands = [self.wanted(dot, kind, depth) for _ in range(2 if name != "eq" else r.randrange(2, 4))]
        return f"{name} " + " ".join(it[0] for it in operands), r.random() < 0.5

    def form(self, dot, depth):
        """A form of printf, and an operand that fits it."""
        r = self.random
        width = r.choice(["", "", "1", "5", "12"])
        flags = r.choice(["", "-"]) if width else ""
        verb = r.choice("dobxXsqctvx")
        if verb in "dobX" or (verb == "x" and r.random() < 0.5):
            return "%" + "".join(r.sample("+-0 ", r.randrange(3))) + width + verb, self.wanted(dot, "number", depth)
        if verb == "c":
            return f"%{flags}{width}c", self.wanted(dot, "number", depth)
        if verb == "t":
            return f"%{flags}{width}t", self.wanted(dot, "truth", depth)
        if verb == "v":
            return "%v", r.choice(self.paths(dot))
        point = r.choice(["", ".2", "."]) if verb == "s" else ""
        return f"%{flags}{width}{point}{verb}", self.wanted(dot, "text", depth)

    def text_call(self, dot, depth):
        r = self.random
        choice = r.randrange(5)
        if choice == 0:
            forms = [self.form(dot, depth) for _ in range(r.randrange(1, 4))]
            format_ = "|".join(it[0] for it in forms) + r.choice(["", "%%", "é"])
            return f"printf {json.dumps(format_, ensure_ascii=False)} " + " ".join(it[1][0] for it in forms), "text"
        if choice == 1:
            spelled, value = self.wanted(dot, "text", depth)
            if isinstance(value, str):
                j = r.randrange(len(value.encode()) + 1)
                i = r.randrange(j + 1)
                return r.choice([f"slice {spelled} {i} {j}", f"slice {spelled} {i}", f"slice {spelled}"]), value
        operands = [r.choice(self.paths(dot)) if r.random() < 0.5 else self.wanted(dot, r.choice(["text", "number", "truth"]), depth) for _ in range(r.randrange(1, 4))]
        name = r.choice(["print", "println", "html", "urlquery"])
        if r.random() < 0.3:
            return " | ".join([operands[0][0], *([f"{name} " + " ".join(it[0] for it in operands[1:])])]), "text"
        return f"{name} " + " ".join(it[0] for it in operands), "text"

    def list_call(self, dot, depth):
        spelled, value = self.wanted(dot, "list", 0)
        if not isinstance(value, list):
            return None, None
        i = self.random.randrange(len(value) + 1)
        return f"slice {spelled} {i}", value[i:]

    def pipeline(self, dot, kind=None):
        r = self.random
        kind = kind or r.choice(["text", "number", "truth", "list", "map", "null"])
        if kind in ("number", "truth", "text", "list") and r.random() < 0.5:
            spelled, value = self.call(dot, kind, 2)
            if spelled:
                return spelled, value
        spelled, value = self.wanted(dot, kind, 2)
        if isinstance(value, dict) and r.random() < 0.2:
            key = r.choice(KEYS)
            return f"({spelled}).{key}", value.get(key)
        return spelled, value

    # ---- nodes

    def action(self, said):
        r = self.random
        return ("{{- " if r.random() < 0.1 else "{{") + said + (" -}}" if r.random() < 0.1 else "}}")

    def nodes(self, dot, depth):
        """A list of nodes, in a scope of their own."""
        self.scopes.append([])
        drawn = "".join(self.node(dot, depth) for _ in range(self.random.randrange(1, 5)))
        self.scopes.pop()
        return drawn

    def node(self, dot, depth):
        r = self.random
        choice = r.randrange(14)
        if choice < 2:
            return r.choice(TEXTS)
        if choice == 2:
            return self.action("/* a comment }} */") if r.random() < 0.5 else "{{/**/}}"
        if choice < 6 or not depth:
            return self.action(self.pipeline(dot)[0])
        if choice == 6:
            return self.declaration(dot)
        if choice == 7 and self.loops:
            return self.action(f"if {self.pipeline(dot, 'truth')[0]}") + self.action(r.choice(["break", "continue"])) + self.action("end")
        if choice >= 12:
            return self.call_template(dot)
        return r.choice([self.if_, self.with_, self.range_, self.range_])(dot, depth - 1)

    def declaration(self, dot):
        r = self.random
        spelled, value = self.pipeline(dot)
        names = [name for name in self.names() if name]
        if names and r.random() < 0.5:
            return self.action(f"${r.choice(sorted(names))} = {spelled}")
        name = r.choice(["x", "y", "z"])
        self.scopes[-1].append((name, value))
        return self.action(f"${name} := {spelled}")

    def header(self, dot, kind):
        """A pipeline, perhaps declared: its spelling, the sample and what it declares."""
        spelled, value = self.pipeline(dot, kind)
        if self.random.random() < 0.2:
            return f"$h := {spelled}", value, [("h", value)]
        return spelled, value, []

    # ---- templates

    def body(self, level, dot, depth):
        """The body of a template, with `$` as its one variable."""
        kept = self.scopes, self.loops, self.level
        self.scopes, self.loops, self.level = [[("", dot)]], 0, level
        drawn = self.nodes(dot, depth)
        self.scopes, self.loops, self.level = kept
        return drawn

    def call_template(self, dot):
        """A call or block of a later template, mostly with the value for which its body is drawn."""
        r = self.random
        later = range(self.level + 1, len(TEMPLATES))
        if r.random() < ODDS_OF_A_FAULT:
            return self.action('template "none"' + r.choice(["", " ."]))
        if not later:
            return r.choice(TEXTS)
        level = r.choice(later)
        there = [spelled for spelled, value in self.paths(dot) if value == self.dots[level]]
        handed = r.choice(there) if there and r.random() < 0.8 else self.pipeline(dot, self.kind(self.dots[level]))[0]
        if level not in self.defined and r.random() < 0.5:
            self.defined.add(level)
            return self.action(f'block "{TEMPLATES[level]}" {handed}') + self.body(level, self.dots[level], 2) + self.action("end")
        return self.action(f'template "{TEMPLATES[level]}"' + (f" {handed}" if r.random() < 0.9 else ""))

    def definition(self, level):
        self.defined.add(level)
        return self.action(f'define "{TEMPLATES[level]}"') + self.body(level, self.dots[level], 2) + self.action("end")

    def file(self, odds):
        """The text of a file that defines each template that is not there with these odds, rarely twice."""
        r = self.random
        self.defined = set()
        own = self.body(-1, self.data, 4) + self.body(-1, self.data, 4) if r.random() < odds + 0.3 else "\n"
        defined = [self.definition(level) for level in range(len(TEMPLATES)) if level not in self.defined and r.random() < odds]
        if r.random() < ODDS_OF_A_FAULT:
            defined.append('{{define "t0"}}x{{end}}')
        r.shuffle(defined)
        at = r.randrange(len(defined) + 1)
        return "".join([*defined[:at], own, *defined[at:]])

    def files(self):
        r = self.random
        others = r.choice([[], [], ["n"], ["n"], ["n", "m"]])
        return [("m", self.file(0.8))] + [(name, self.file(0.4)) for name in others]

    def if_(self, dot, depth):
        said, _, declared = self.header(dot, self.random.choice(["truth", "number", "text", "list"]))
        self.scopes.append(declared)
        drawn = self.action(f"if {said}") + self.nodes(dot, depth)
        if self.random.random() < 0.3:
            drawn += self.action(f"else if {self.pipeline(dot, 'truth')[0]}") + self.nodes(dot, depth)
        if self.random.random() < 0.4:
            drawn += self.action("else") + self.nodes(dot, depth)
        self.scopes.pop()
        return drawn + self.action("end")

    def with_(self, dot, depth):
        said, value, declared = self.header(dot, None)
        self.scopes.append(declared)
        drawn = self.action(f"with {said}") + self.nodes(value, depth)
        if self.random.random() < 0.4:
            drawn += self.action("else") + self.nodes(dot, depth)
        self.scopes.pop()
        return drawn + self.action("end")

    def range_(self, dot, depth):
        r = self.random
        said, value = self.pipeline(dot, r.choice(["list", "map", "null"]))
        if self.kind(value) == "number" or self.kind(value) in ("text", "truth") and r.random() > ODDS_OF_A_FAULT:
            # a number is a fault before Go 1.24
            return r.choice(TEXTS)
        entries = sorted(value.items()) if isinstance(value, dict) else list(enumerate(value)) if isinstance(value, list) else []
        key, element = entries[0] if entries else (0, "text")
        # names of their own: in the else part Go's are still there, with the value of the pipeline, and ours are not
        i, e = f"i{len(self.scopes)}", f"e{len(self.scopes)}"
        variables, declared = r.choice([("", []), (f"${e} := ", [(e, element)]), (f"${i}, ${e} := ", [(i, key), (e, element)])])
        self.scopes.append(declared)
        self.loops += 1
        drawn = self.action(f"range {variables}{said}") + self.nodes(element, depth)
        self.loops -= 1
        self.scopes.pop()
        if r.random() < 0.3:
            # a break in the else part is left out: there Go ends the inner range, and we the outer one
            loops, self.loops = self.loops, 0
            drawn += self.action("else") + self.nodes(dot, depth)
            self.loops = loops
        return drawn + self.action("end")


def draw_heap(r):
    """Braces, markers, comments and quotes."""
    pieces = ["{{", "}}", "{{-", "-}}", "{{/*", "*/}}", " ", "\n", "\t", "/*", "*/", "a", "{", "}", "-", ".a", "(", ")", '"', "`", "'", " | "]
    drawn = "".join(r.choices(pieces, [6, 6, 3, 3, 2, 2, 4, 1, 1, 1, 1, 2, 1, 1, 1, 3, 1, 1, 1, 1, 1, 1], k=r.randrange(1, 14)))
    # a bar at the end of a pipeline is left out: Go takes it, and we refuse it
    return re.sub(r"\|(?=\s*-?\}\})", "", drawn)


def draw_constant(r):
    """A constant, of which perhaps one byte is changed."""
    sign = r.choice(["", "", "+", "-"])
    digits = "".join(r.choices("0123456789abcdefABCDEF_", k=r.randrange(1, 5)))
    escape = r.choice(["\\n", "\\t", "\\\\", "\\x41", "\\377", "\\400", "\\u00e9", "\\ud800", "\\U0001F600", "\\'", '\\"', "\\q", "\\0", "a", "é", ""])
    spelled = r.choice(
        [
            sign + "".join(r.choices("0123456789_", k=r.randrange(1, 8))),
            sign + r.choice(["0x", "0X", "0o", "0O", "0b", "0B", "0"]) + digits,
            sign + r.choice(["9223372036854775807", "9223372036854775808", "0x7fffffffffffffff", "0x8000000000000000", "01777777777777777777777"]),
            f"'{escape}'",
            f'"{escape}{r.choice(["", "z"])}"',
            f"`{escape}`",
        ]
    )
    if r.random() < 0.3:
        at = r.randrange(len(spelled))
        spelled = spelled[:at] + r.choice("0189_xob'\"\\a") + spelled[at + 1 :]
    if not re.match("[+-]?0[xX]", spelled) and spelled[0] not in "'\"`":
        # no floats: an e begins an exponent
        spelled = spelled.translate({ord("e"): "a", ord("E"): "A"})
    return "{{print " + spelled + "}}"


def draw_controls(r):
    """Controls, definitions, blocks and calls, mostly ended. White space is left out: of two blank definitions in a file Go
    takes the later one, and we the earlier. Data is null, so that no range has an element."""
    defines = ['{{define "a"}}', '{{define "b"}}', '{{define "m"}}']
    openings = ["{{if true}}", "{{with false}}", "{{range .}}", '{{block "a" .}}', '{{block "b" true}}']
    others = ["{{else}}", "{{else if true}}", "{{break}}", '{{template "a" 1}}', '{{template "b"}}', "x", "{{.}}", "{{$}}"]
    drawn, opened = [], 0
    for _ in range(r.randrange(1, 10)):
        choice = r.random()
        if choice < 0.4:
            drawn.append(r.choice(openings if opened and r.random() < 0.95 else defines + openings))
            opened += 1
        elif choice < 0.65 and opened:
            drawn.append("{{end}}")
            opened -= 1
        else:
            drawn.append(r.choices(others, [2, 1, 1, 4, 4, 8, 4, 3])[0])
    return "".join(drawn) + "{{end}}" * (opened if r.random() < 0.9 else r.randrange(3))


def draw(seed):
    drawing = Drawing(seed)
    r, kind = drawing.random, seed % 4
    data = drawing.data
    if kind == 0:
        files = drawing.files()
    elif kind == 3:
        data = None
        files = [("m", draw_controls(r))] + [("n", draw_controls(r))] * (r.random() < 0.3)
    else:
        files = [("m", (draw_heap if kind == 1 else draw_constant)(r))]
    return {"Files": [{"Name": name, "Text": text} for name, text in files], "Data": data}


def ours(it, folder):
    # two files may have one base name
    templates = {f"{number}/{file['Name']}": file["Text"] for number, file in enumerate(it["Files"])}
    for name, what in {**templates, "d": json.dumps(it["Data"])}.items():
        os.makedirs(os.path.dirname(f"{folder}/{name}"), exist_ok=True)
        with open(f"{folder}/{name}", "w", encoding="utf-8", newline="") as file:
            file.write(what)
    ran = subprocess.run([harness.PROGRAM, "--steps", STEPS, "--data", "d", *templates], cwd=folder, stdout=subprocess.PIPE, stderr=subprocess.PIPE, timeout=harness.SECONDS)
    return ran.returncode, ran.stdout, ran.stderr.decode(errors="replace")


def judge(it, theirs, folder):
    """Whether both agree, and what came of it; or what differs. A format that we refuse may print something in Go, as `%d`
    of a text does, a number that is ranged over is a fault before Go 1.24, and Go calls deeper and takes any number of steps:
    then the texts must be equal up to there. A number out of range is refused as the template is read, and by Go when it runs."""
    status, text, line = ours(it, folder)
    their_text = base64.b64decode(theirs["Text"] or "")
    if status == 1 and re.search(r": (printf: format refused|calls deeper than \d+|more than \d+ steps)\n$", line) and their_text.startswith(text):
        return "cut short", None
    if status == 0 and theirs["Done"] and text == their_text:
        return "done", None
    if status == 1 and theirs["Read"] and not theirs["Done"] and text == their_text:
        return "faulted", None
    if status != 4 and re.search(r"range can't iterate over -?\d+$", theirs["Fault"]) and text.startswith(their_text):
        return "cut short", None
    if status == 4 and (not theirs["Read"] or theirs["Fault"].endswith("overflows int")):
        return "refused", None
    told = "Go read it" if theirs["Read"] else "Go refused it"
    return "differs", f"    ours: status {status}, {harness.short(text)}, {line.strip()}\n    Go: {told}, {harness.short(their_text)}, {theirs['Fault']}"


def version_of(go):
    """The version of a Go as numbers, or none where it does not run."""
    try:
        told = subprocess.run([go, "version"], stdout=subprocess.PIPE, stderr=subprocess.DEVNULL, check=True).stdout.decode()
    except (OSError, subprocess.CalledProcessError):
        return None
    found = re.match(r"go version go(\d+)\.(\d+)(?:\.(\d+))?", told)
    return tuple(int(it or 0) for it in found.groups()) if found else None


def newest_go():
    """The newest Go that is there: on the PATH, or where Debian and Go's own archive put it."""
    there = [it for it in [shutil.which("go"), *glob.glob("/usr/lib/go-*/bin/go"), "/usr/local/go/bin/go"] if it]
    versions = {it: version_of(it) for it in there}
    return max((it for it in there if versions[it]), key=versions.get, default="go")


def build(to):
    subprocess.run([newest_go(), "build", "-o", to, f"{HERE}/main.go"], env={**os.environ, "GO111MODULE": "off"}, check=True)


def answers(cases):
    with tempfile.TemporaryDirectory() as folder:
        built = f"{folder}/gotemplate"
        build(built)
        ran = subprocess.run([built, "cases"], input=json.dumps(cases).encode(), stdout=subprocess.PIPE, check=True)
    return json.loads(ran.stdout)


def main(count=2000, first=0):
    cases = [draw(seed) for seed in range(int(first), int(first) + int(count))]
    told = {"done": 0, "faulted": 0, "refused": 0, "cut short": 0, "differs": 0}
    with tempfile.TemporaryDirectory() as folder:
        for number, (it, theirs) in enumerate(zip(cases, answers(cases))):
            kind, wrong = judge(it, theirs, folder)
            told[kind] += 1
            if wrong:
                print(f"DIFFERS seed {int(first) + number}: {it['Files']!r} with {json.dumps(it['Data'])}", wrong, sep="\n")
    print(f"both ended well {told['done']} times, faulted {told['faulted']} times and refused the template {told['refused']} times; "
          f"{told['cut short']} runs were equal up to a format that we refuse, a limit of ours or a number that Go does not range over")
    return harness.closing(sum(told.values()) - told["differs"], told["differs"])


if __name__ == "__main__":
    sys.exit(main(*sys.argv[1:]))
