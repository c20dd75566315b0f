"""Renders random sets of templates with data and options, and compares the result with the rules stated a second time. Those are
meaning.py, which shares no code with the program. Before that meaning.py is held against the rows: what it tells of each must be what was
worked out by hand. Each kind of fault of the tables of docs/COMMAND.md must come, and half of the draws must be accepted and run. They are
the same each time; `random_sets.py COUNT SEED` draws others, from this seed on. TMPL=PATH names another build."""
import collections
import gc
import json
import os
import random
import re
import sys
import threading

from tests.lib import harness
from tests.oracle import meaning, reading

COUNT = 8000
ROWS = 1220  # of which meaning.py tells at least
LARGE = 1 << 17  # bytes up to which a row is told
DEEP = 10000  # and calls inside one another, each of which takes some of Python's own

# The keys of a map of the data by the kind of what stands there; any key may be missing. A `tree` is a list of such maps.
FIELDS = {
    **{"number": ["n", "é"], "text": ["t", "Name"], "truth": ["b"], "numbers": ["l"], "texts": ["s"], "tree": ["c"]},
    **{"map": ["m"], "null": ["z"], "any": ["w"]},
}
KINDS = ["number", "text", "truth", "numbers", "texts", "tree", "map"]
LISTS = {"numbers": "number", "texts": "text", "tree": "map"}
WHOLES = [*LISTS, "map"]
MADE = ["number", "text", "truth"]  # kinds of which there are constants
NUMBERS = [0, 1, -1, 2, 3, 7, 42, 255, -255, 2**31, 2**63 - 1, -(2**63)]
WORDS = ["", "a", "Ada", 'x<y & "z"', "é→", "naïveté", "two words", "tab\t", "'q'", "0", "~_.-/", "line\nbreak", "\0\x7f"]
TEXTS = [" ", "\n", "a", "text ", " \n\t", "{ ", "}", "é", "<b>", "\r\n", "b\nc\n", "-", "{{/* c */}}", "{{- /* }} */ -}}"]
VARIABLES = ["x", "y", "é1"]
TEMPLATES = ["a", "b", "c", 'é"\n', ""]
PATHS = ["m", "n", "x/m", "a", "é t"]
# what is called where there is no operand of the wanted kind
OTHERWISE = {"number": ("len", ["text"]), "text": ("print", ["some"]), "truth": ("not", ["some"])}
MODES = ["default", "invalid", "zero", "zero", "error"]
# The functions that give each kind, with the kinds of their operands: `some` is any, `same` are alike, `small` fits as an index.
SHAPES = {
    "number": [("len", ["whole"]), ("len", ["text"]), ("index", ["numbers", "small"]), ("index", ["text", "small"])],
    "text": [
        *[(name, ["some"] * count) for name in ("print", "println", "html", "urlquery") for count in range(4)],
        *[("slice", ["text", *bounds]) for bounds in ([], ["small"], ["zero", "small"])],
        *[("printf", None)] * 12,
        ("index", ["texts", "small"]),
    ],
    "truth": [
        *[("not", ["some"]), ("ne", ["same"] * 2), *[("eq", ["same"] * count) for count in (2, 3, 4)]],
        ("eq", ["same", "same", "some"]),
        *[(name, [kind] * 2) for name in ("lt", "le", "gt", "ge") for kind in ("number", "text")],
    ],
    "map": [("index", ["tree", "small"])],
    **{of: [("slice", [of, *bounds]) for bounds in ([], ["small"], ["zero", "small"])] for of in LISTS},
    "any": [],
}

ODDS = [0, 0, 0.01, 0.04]  # the odds of an operand or a call that is likely to be a fault; one of them for a case
# What is put somewhere into a file, to have it refused.
FLAWS = [
    *["{{.x", "{{.x}", '{{"b}}', "{{.n-}}", "{{/* c */ }}", "{{.n ! 1}}", "{{'a}}", "{{`a"],
    *["{{}}", "{{nofun 1}}", "{{.n | 1}}", "{{08}}", "{{if}}", "{{$ := .}}", "{{..}}", '{{"\\q"}}', "{{(.n}}"],
    *["{{end}}", "{{else}}", "{{break}}", "{{continue}}", '{{define "q"}}{{end}}', "{{else if .}}", "{{else with .}}"],
    *["{{%s.%s}}" % ("(" * 101, ")" * 101), "{{if .}}" * 501 + "{{end}}" * 501, "{{$q}}", "{{$q = 1}}"],
    *["{{if .}}", '{{block "a" .}}', '{{define "a"}}', "{{range .l}}", '{{define "a"}}1{{end}}\n{{define "a"}}2{{end}}'],
]
BAD_DATA = ["", "{", "[1,]", '{"n":1.5}', '"\\ud800"', "-0", "1e999", "[9223372036854775808]", "[" * 128 + "]" * 128, "nul"]
ODD_FORMS = ["%", "%z", "%5%", "%.3d", "%#x", "%*d", "%12345d", "%+v", "%05s", "%-+d", "%.12345s", "%[1]d"]


class Random(random.Random):
    """Draws as Python does, with a choice that takes less time."""

    def choice(self, them):
        return them[int(self.random() * len(them))]


class Drawing:
    """Draws one case. Each variable and each dot is known by the kind that it mostly has; what it comes to in a run may be of
    another, be null or be missing."""

    def __init__(self, seed):
        self.random = Random(seed)
        self.dots = {name: self.random.choice(["map", "map", *KINDS]) for name in TEMPLATES}
        self.root = "map" if self.random.random() < 0.95 else self.random.choice([*KINDS, "any"])
        # how often a key is there, and a null in the place of a value
        self.full, self.null = self.random.choice([(0.85, 0.04), (1, 0.02), (1, 0), (1, 0)])
        self.odd = self.random.choice(ODDS)
        # of the template that is drawn: the kinds of its dots, its variables by scopes, and how many ranges are open around
        self.start = self.dot = self.root
        self.scopes, self.ranges = [], 0
        # which of TEMPLATES it is, and the names that the file defines
        self.level, self.defined = -1, set()

    def often(self, odds):
        return self.random.random() < odds

    def some(self, what, least, most, *given):
        """From least to most of what a method draws."""
        return [what(*given) for _ in range(self.random.randint(least, most))]

    # ---- data

    def value(self, kind, depth):
        r = self.random
        if self.often(self.null):
            return None
        if kind in MADE:
            return {"number": self.number, "text": lambda: r.choice(WORDS), "truth": lambda: self.often(0.5)}[kind]()
        if kind == "any":
            return self.value(r.choice([*KINDS, "null"] if depth > 0 else MADE), depth)
        if kind in LISTS:
            least = 0 if self.often(0.05) else 2
            return self.some(self.value, least, 4, LISTS[kind], depth - 1) if depth > 0 or LISTS[kind] in MADE else []
        keys = [(key, its) for its in FIELDS for key in FIELDS[its] if depth >= 0 and self.often(self.full)]
        r.shuffle(keys)
        return None if kind == "null" else {key: self.value(its, depth - 1) for key, its in keys}

    def number(self):
        return self.random.randrange(6) if self.often(0.7) else self.random.choice(NUMBERS)

    # ---- operands

    def variables(self):
        return {name: kind for scope in self.scopes for name, kind in scope}

    def path(self, kind):
        """A chain that mostly comes to this kind, or none where there is none: the dot, the start or a variable of that kind, or a
        field of one that is a map."""
        roots = [(".", self.dot), ("$", self.start), *((f"${name}", its) for name, its in self.variables().items())]
        whole = [root for root, its in roots if its == kind]
        maps = ["" if root == "." else root for root, its in roots if its == "map"]
        if len(whole) + len(maps) == 0:
            return None
        keys, ways = FIELDS.get(kind, ["w"]), ("", "", ".m")
        at = self.random.randrange(len(whole) + len(maps) * len(ways) * len(keys))
        if at < len(whole):
            return whole[at]
        return self.random.choice(maps) + self.random.choice(ways) + "." + self.random.choice(keys)

    def there(self, kinds=KINDS):
        """Those of these kinds of which there is something to name."""
        seen = {self.dot, self.start, *self.variables().values()}
        return [kind for kind in kinds if kind in MADE or kind in seen or "map" in seen]

    def constant(self, kind):
        r = self.random
        if kind == "truth":
            return r.choice(["true", "false"])
        if kind == "text":
            word = r.choice(WORDS)
            is_plain = word.isprintable() and "`" not in word
            return f"`{word}`" if is_plain and self.often(0.2) else json.dumps(word, ensure_ascii=self.often(0.3))
        number = self.number()
        spelled = [str(number), str(number), f"{number:#x}" if number >= 0 else f"-{-number:#o}", f"{number:+d}"]
        return r.choice([*spelled, "'a'", "1_0", "0b11"])

    def operand(self, kind, depth):
        r = self.random
        if self.often(self.odd):
            return r.choice(["nil", ".q", ".z", ".z.n", "$.q.n", ".w", "len", "print", self.operand(r.choice(KINDS), 0)])
        if kind == "zero" or kind == "small" and self.often(0.9):
            return "0" if kind == "zero" else r.choice("00001")
        kind = "number" if kind == "small" else kind
        if kind in ("some", "whole"):
            kind = r.choice(self.there(KINDS if kind == "some" else WHOLES) or MADE)
        choice = r.random()
        if kind in MADE and choice < 0.35:
            return self.constant(kind)
        if depth > 0 and choice > 0.7:
            chained = self.often(0.2) and "map" in self.there(["map"])
            inner = self.pipeline("map" if chained else kind, depth - 1)
            return f"({inner})." + r.choice(FIELDS[kind]) if chained else f"({inner})"
        return self.path(kind) or (self.constant(kind) if kind in MADE else r.choice([".", "$", self.path("any") or "."]))

    # ---- calls and pipelines

    def shape(self, kind):
        """A function that gives this kind, and the kinds of its operands, of which there is something."""
        r = self.random
        name, kinds = r.choice([*SHAPES[kind], (r.choice(["and", "or"]), [kind] * r.randint(1, 3))])
        if kinds is None:
            return name, None
        if any(it in WHOLES and not self.there([it]) for it in kinds):
            name, kinds = OTHERWISE.get(kind, (name, kinds))
        same = r.choice(MADE)
        return name, [same if it == "same" else it for it in kinds]

    def call(self, kind, depth):
        """The words of a call."""
        r = self.random
        name, kinds = self.shape(kind)
        words = self.formatted(depth) if kinds is None else [self.operand(its, depth) for its in kinds]
        if name == "index" and self.often(0.2) and self.there(["map"]):
            key = r.choice([key for keys in FIELDS.values() for key in keys])
            words = [self.operand("map", depth), f'"{key}"']
        if self.often(self.odd):
            name = r.choice([name, r.choice(reading.FUNCTIONS).decode()])
            count = r.choice([len(words), 0, 0, 1, 2, 3, 4])
            words = self.some(self.operand, count, count, "some", 0)
        return [name, *words]

    def formatted(self, depth):
        """The format of `printf` and what it prints."""
        forms = self.some(self.form, 1, 3)
        said = "|".join(form for form, _ in forms) + self.random.choice(["", "%%", "é"])
        return [json.dumps(said, ensure_ascii=False), *(self.operand(kind, depth) for _, kind in forms if kind)]

    def form(self):
        """A form, and the kind that it takes."""
        r = self.random
        if self.often(self.odd):
            return r.choice(ODD_FORMS), r.choice(MADE)
        verb, width = r.choice("vdobxXssssqqxXct"), r.choice(["", "1", "5", "12"])
        kinds = {"v": KINDS, "s": ["text"], "q": ["text"], "t": ["truth"], "x": ["number", "text"], "X": ["number", "text"]}
        kind = r.choice(self.there(kinds.get(verb, ["number"])))
        is_number = kind == "number" and verb in "dobxX"
        flags = "".join(r.choices("-+0 ", k=r.randrange(4))) if is_number else r.choice(["", "-"])
        if kind not in MADE:
            flags = width = ""
        point = r.choice(["", ".", ".0", ".2", ".4"]) if verb == "s" else ""
        return f"%{flags}{width}{point}{verb}", kind

    def pipeline(self, kind, depth):
        r = self.random
        if self.often(self.odd / 3):
            return r.choice(["$ 1", "1 | $", "nil", "true 1", f"{self.operand(kind, 0)} | .t", '"a" nil', "(nil)"])
        if not (depth > 0 and self.often(0.6)):
            return self.operand(kind, depth)
        name, *words = self.call(kind, depth - 1)
        if words and self.often(0.3):
            return f"{words[-1]} | {self.spaced([name, *words[:-1]])}"
        return self.spaced([name, *words])

    def spaced(self, words):
        return (" " if self.often(0.95) else self.random.choice(["  ", "\n", "\t "])).join(words)

    # ---- nodes

    def action(self, said):
        odds, space = self.random.random(), self.random.choice(["", "", "", "", " ", "\n"])
        return ("{{- " if odds < 0.1 else "{{") + space + said + space + (" -}}" if 0.05 < odds < 0.15 else "}}")

    def nodes(self, depth, declared=(), most=3):
        """Nodes in a scope of their own, with what the header of their control declares."""
        self.scopes.append(list(declared))
        drawn = "".join(self.some(self.node, 1, most, depth))
        self.scopes.pop()
        return drawn

    def node(self, depth):
        r = self.random
        ways = [self.text, self.output, self.output, self.output, self.variable, self.called]
        if self.ranges and self.often(0.15):
            return self.leaving(depth)
        if depth > 0:
            ways += [self.if_, self.with_, self.range_, self.range_, self.recursion]
        return r.choice(ways)(depth)

    def text(self, _):
        return self.random.choice(TEXTS)

    def output(self, _):
        return self.action(self.pipeline(self.random.choice([*self.there(), "text", "number"]), 2))

    def leaving(self, depth):
        """A break or continue, alone or in a control."""
        leave = self.action(self.random.choice(["break", "continue"]))
        if self.often(0.15) or not depth:
            return leave
        said = self.pipeline("truth", 1)
        control = self.random.choice(["if", "with"])
        other = self.action("else") + (self.text(0) if self.often(0.5) else leave) if self.often(0.3) else ""
        return self.action(f"{control} {said}") + self.text(0) + leave + other + self.action("end")

    def variable(self, _):
        """A declaration, or an assignment, of which no text grows with the steps of a run."""
        kind = self.random.choice(self.there())
        known = [name for name, its in self.variables().items() if its == kind]
        if not known or self.often(0.5):
            name, said = self.random.choice(VARIABLES), self.pipeline(kind, 1)
            self.scopes[-1].append((name, kind))
            return self.action(f"${name} := {said}")
        said = self.pipeline(kind, 1) if kind not in ("text", "texts") else self.kept()
        return self.action(f"${self.random.choice(known)} = {said}")

    def kept(self):
        """A text that is no longer than those of the data, but for a few runes."""
        return self.random.choice([self.operand("text", 0), f'printf "%.9s" ({self.pipeline("text", 1)})'])

    # ---- controls

    def header(self, kinds):
        """The pipeline of a control, its kind, and what it declares."""
        kind = self.random.choice(self.there(kinds))
        known = [name for name, its in self.variables().items() if its == kind and kind in ("number", "truth", "map")]
        said = self.pipeline(kind, 2)
        if known and self.often(0.1):
            return f"${self.random.choice(known)} = {said}", kind, []
        if self.often(0.2):
            name = self.random.choice(VARIABLES)
            return f"${name} := {said}", kind, [(name, kind)]
        return said, kind, []

    def within(self, dot, depth, declared):
        """Nodes with another dot."""
        kept, self.dot = self.dot, dot
        drawn = self.nodes(depth, declared)
        self.dot = kept
        return drawn

    def if_(self, depth):
        said, _, declared = self.header(["truth", "truth", *KINDS])
        drawn = self.action(f"if {said}") + self.nodes(depth - 1, declared)
        self.scopes.append(declared)
        drawn += self.others("if", ["truth", "number"], depth) + self.action("end")
        self.scopes.pop()
        return drawn

    def with_(self, depth):
        said, kind, declared = self.header([*KINDS, "any"])
        drawn = self.action(f"with {said}") + self.within(kind, depth - 1, declared)
        self.scopes.append(declared)
        drawn += self.others("with", KINDS, depth) + self.action("end")
        self.scopes.pop()
        return drawn

    def others(self, control, kinds, depth):
        """The else parts of an `if` or `with`; a variable of a header is seen in all that follow."""
        if self.often(0.25):
            said, kind, declared = self.header(kinds)
            dot = kind if control == "with" else self.dot
            drawn = self.action(f"else {control} {said}") + self.within(dot, depth - 1, declared)
            self.scopes.append(declared)
            drawn += self.others(control, kinds, depth)
            self.scopes.pop()
            return drawn
        return self.action("else") + self.nodes(depth - 1) if self.often(0.3) else ""

    def range_(self, depth):
        r = self.random
        kind = r.choice(KINDS if self.often(self.odd) else self.there([*WHOLES, *WHOLES, "number"]))
        element, key = LISTS.get(kind, "number" if kind == "number" else "any"), "number" if kind in LISTS else "text"
        one, two = r.choice(VARIABLES), r.choice(VARIABLES)
        ways = [("", []), (f"${one} := ", [(one, element)]), (f"${one}, ${two} := ", [(one, key), (two, element)])]
        variables, declared = r.choice(ways[: 2 if kind == "number" and not self.often(self.odd) else 3])
        said = str(r.randrange(5)) if kind == "number" and self.often(0.4) else self.pipeline(kind, 1)
        self.ranges += 1
        drawn = self.action(f"range {variables}{said}") + self.within(element, depth - 1, declared)
        self.ranges -= 1
        if self.often(0.3):
            drawn += self.action("else") + self.nodes(depth - 1)
        return drawn + self.action("end")

    # ---- templates and files

    def body(self, name, dot, depth):
        """The body of a template: with its own variables, and in no range."""
        kept = self.start, self.dot, self.scopes, self.ranges, self.level
        self.start, self.dot, self.scopes, self.ranges = dot, dot, [], 0
        self.level = TEMPLATES.index(name) if name in TEMPLATES else -1
        drawn = self.nodes(depth, most=3 if self.level >= 0 else 8)
        self.start, self.dot, self.scopes, self.ranges, self.level = kept
        return drawn

    def name(self):
        """The name of a later template, mostly, so that not each run goes on until its depth or its steps end it."""
        if self.often(0.02 + self.odd):
            return self.random.choice(["none", "m", "n", *TEMPLATES])
        return self.random.choice(TEMPLATES[self.level + 1 :] or TEMPLATES)

    def handed(self, name):
        """What a template is called with; no text that grows from call to call."""
        if self.often(0.03):
            return ""
        kind = self.dots.get(name, self.root)
        return " " + (self.kept() if kind in ("text", "any") else self.pipeline(kind, 1))

    def quoted(self, name):
        return f"`{name}`" if name.isalnum() and self.often(0.1) else json.dumps(name, ensure_ascii=False)

    def called(self, depth):
        """A call, or a block of a name that the file does not define yet, mostly."""
        name = self.name()
        if depth > 0 and self.often(0.3) and (name not in self.defined or self.often(self.odd)):
            self.defined.add(name)
            header = f"block {self.quoted(name)}{self.handed(name) or ' .'}"
            return self.action(header) + self.body(name, self.dots.get(name, self.root), depth - 1) + self.action("end")
        return self.action(f"template {self.quoted(name)}{self.handed(name)}")

    def recursion(self, _):
        """Calls along the data, or now and then again and again."""
        if self.dot != "map" and self.often(0.8):
            return self.text(0)
        names = [name for name, dot in self.dots.items() if dot == self.dot]
        if not names:
            return self.text(0)
        called = self.action(f"template {self.quoted(self.random.choice(names))} .")
        return self.action("range .c") + called + self.action("end") if self.dot == "map" and self.often(0.9) else called

    def definition(self, name):
        self.defined.add(name)
        return self.action(f"define {self.quoted(name)}") + self.body(name, self.dots[name], 3) + self.action("end")

    def file(self, name, odds):
        """The text of a file of this base name, which defines each name that is not there with these odds."""
        self.defined = {name}
        parts = [self.body(None, self.root, 4)] if self.often(0.95) else [" \n"]
        parts += [self.definition(it) for it in TEMPLATES if it not in self.defined and self.often(odds)]
        self.random.shuffle(parts)
        drawn = "".join(part + self.random.choice(["", "", "\n"]) for part in parts)
        if self.often(0.06):
            places = [found.start() for found in re.finditer(r"\{\{|$", drawn)]
            at = self.random.choice(places)
            drawn = drawn[:at] + self.random.choice(FLAWS) + drawn[at:]
        return drawn.encode()

    def files(self):
        r = self.random
        paths = r.sample(PATHS, r.choice([1, 1, 2, 3]))
        return [(path.encode(), self.file(os.path.basename(path), 0.3 if number else 0.9)) for number, path in enumerate(paths)]

    # ---- a case

    def options(self):
        """The words of the options but the data, and what they say; each run ends after a few steps."""
        r = self.random
        told = {"steps": r.choice([r.randrange(1, 40), 300, 300, 300, 1000, 1000, 1000])}
        if told["steps"] > 300 or self.often(0.7):
            told["depth"] = r.choice([r.randrange(1, 6), 10, 30])
        if self.often(0.7):
            told["missingkey"] = r.choice(MODES)
        if self.often(0.08):
            told["name"] = r.choice([*TEMPLATES, "m", "nobody"])
        words = [f"--{key}={value}" if self.often(0.5) else [f"--{key}", str(value)] for key, value in told.items()]
        r.shuffle(words)
        return told, [part.encode() for word in words for part in ([word] if isinstance(word, str) else word)]

    def data(self):
        if self.often(0.03):
            return None
        if self.often(0.02):
            return self.random.choice(BAD_DATA).encode()
        return json.dumps(self.value(self.root, 3), ensure_ascii=self.often(0.5)).encode()


class Case:
    """The files, the data and the options of a draw, and the words that name them."""

    def __init__(self, seed):
        drawing = Drawing(seed)
        self.files = drawing.files()
        data = drawing.data()
        self.data = None if data is None else (b"d", data)
        told, self.words = drawing.options()
        told = {key: value.encode() if isinstance(value, str) else value for key, value in told.items()}
        self.options = meaning.Options(**told)
        self.words += ([b"--data", b"d"] if self.data else []) + [b"--", *(path for path, _ in self.files)]

    def lay(self, runner):
        runner.empty()
        for path, what in [*self.files, *([self.data] if self.data else [])]:
            runner.lay(path, what)


# ---- how a run ends

CALLS = {
    **{name: [meaning.WRONG_COUNT] for name in (b"and", b"or", b"not")},
    **{name: [meaning.WRONG_COUNT, meaning.NOT_COMPARABLE] for name in (b"eq", b"ne", b"lt", b"le", b"gt", b"ge")},
    b"len": [meaning.WRONG_COUNT, meaning.WRONG_KIND],
    b"index": [meaning.WRONG_COUNT, meaning.WRONG_KIND, meaning.OUT_OF_RANGE],
    b"slice": [meaning.WRONG_COUNT, meaning.WRONG_KIND, meaning.OUT_OF_RANGE],
    b"printf": [meaning.WRONG_COUNT, meaning.WRONG_KIND, meaning.REFUSED],
}
# The beginnings of what a line tells, by status, but for a file that is too long, which rows have.
TELLS = {
    1: [
        *[b"no template ", b"calls deeper than ", b"no entry for key ", b"no field ", b"more than "],
        *[meaning.NO_RANGE, meaning.NO_FUNCTION, meaning.NIL_COMMAND],
        *[name + b": " + why for name, reasons in CALLS.items() for why in reasons],
    ],
    4: [
        *[b"no template ", reading.UNREADABLE.encode(), reading.NOT_AN_ACTION.encode(), reading.OUT_OF_PLACE.encode()],
        *(it.encode() for it in (reading.TOO_DEEP, reading.UNDECLARED, reading.OPEN, reading.SECOND)),
    ],
    5: [reading.NOT_JSON.encode(), reading.NOT_WHOLE.encode()],
}
PLACE = re.compile(rb'tmpl: (?:d: |[^:]*:[0-9]+: (?:in "(?:[^"\\]|\\.)*": )?)?')


def ending(status, errors):
    """The status, and the kind of what the line tells."""
    told = errors[PLACE.match(errors).end() :] if errors else b""
    return status, next((it for it in TELLS.get(status, []) if told.startswith(it)), b"")


def check(seed):
    """How the run of a draw ended, and what is wrong with it."""
    case = Case(seed)
    case.lay(RUNNER)
    got, wanted = RUNNER.run(case.words), meaning.outcome(case.files, case.data, case.options)
    kind = ending(got[0], got[2])
    if got == wanted:
        return kind, []
    drawn = [f"    {path!r}: {what!r}" for path, what in [*case.files, *([case.data] if case.data else [])]]
    return kind, [f"FAILED seed {seed}, with the words {case.words}; again by python3 -m tests.check.random_sets 1 {seed}", *drawn, *shown("got", got), *shown("wanted", wanted)]


def shown(name, came):
    """What came of a run, as a person can read it."""
    status, out, err = came
    return [f"    {name}: status {status}, output {harness.short(out)}", f"      errors {harness.short(err)}"]


# ---- rows


def options_of(words):
    """What the options of a row say, but for the data."""
    told, rest = {}, iter(words)
    for word in rest:
        name, is_joined, value = word.partition(b"=")
        told[name[len(b"--") :].decode()] = value if is_joined else next(rest, b"")
    told.pop("data", None)
    return meaning.Options(**{name: int(it) if name in ("depth", "steps") else it for name, it in told.items()})


def told_of_row(row):
    """What meaning.py tells of a row that comes to a refusal or to a run; nothing of others, and of large and deep ones."""
    words = {*row.words}
    asks = {b"--print", b"-h", b"--help"} & words
    is_plain = row.stdout == row.stderr == "pipe" and row.is_again() and row.stdin is None
    if asks or not is_plain or row.status not in (0, 1, 4, 5) or row.size() > LARGE:
        return None
    options, paths, data = harness.parted(row.words)
    held = {os.path.normpath(os.fsencode(name)): what for name, what in row.files.items() if what is not None}
    given = [(path, held.get(os.path.normpath(path))) for path in [*paths, *([data] if data else [])]]
    if not paths or any(what is None for _, what in given):
        return None
    files, data = given[: len(paths)], given[len(paths) :]
    asked = options_of(options)
    return meaning.outcome(files, data[0] if data else None, asked) if asked.depth <= DEEP else None


def check_rows(wrong):
    """Holds meaning.py against the rows: adds the names of those of which it tells another thing, and how many it tells of."""
    told = [(row, told_of_row(row)) for row in harness.read_rows()]
    told = [(row, came) for row, came in told if came]
    wrong.append(len(told))
    wrong += [f"FAILED {row.name}: told as {came}" for row, came in told if came != (row.status, row.out, row.err)]


def with_room(what, *given):
    """Does it on a stack on which deep calls have room."""
    sys.setrecursionlimit(1000000)
    threading.stack_size(1 << 28)
    thread = threading.Thread(target=what, args=given)
    thread.start()
    thread.join()


def start():
    global RUNNER
    sys.setrecursionlimit(20000)
    gc.set_threshold(100000)  # nearly all that is made goes with its draw
    RUNNER = harness.Runner()


def lacking(came, count):
    """What did not come that should have, a line each."""
    wanted = [(status, kind) for status, kinds in TELLS.items() for kind in kinds] if count >= COUNT else []
    lines = [f"FAILED no draw came to status {status}, {kind.decode()!r}" for status, kind in wanted if not came[status, kind]]
    run = sum(number for (status, _), number in came.items() if status in (0, 1))
    return lines + ["FAILED fewer than half of the draws were accepted and run"] * (2 * run < count)


def main(count=COUNT, first=0):
    if not harness.is_built():
        return harness.closing(0, 1)
    count, first = int(count), int(first)
    told, came, failed = [], collections.Counter(), 0
    with_room(check_rows, told)
    for kind, wrong in harness.in_processes(check, range(first, first + count), start, 50):
        print(*wrong, sep="\n", end="\n" * bool(wrong))
        came[kind], failed = came[kind] + 1, failed + bool(wrong)
    for (status, kind), number in sorted(came.items()):
        print(f"{number:6} status {status} {kind.decode()}")
    wrong = [*told[1:], *lacking(came, count)]
    print(*wrong, sep="\n", end="\n" * bool(wrong))
    passed = told[0] - len(told[1:]) + count - failed
    done, faulted = came[0, b""], sum(number for (status, _), number in came.items() if status == 1)
    print(f"{done} draws were done, {faulted} faulted and {count - done - faulted} were refused")
    failed += len(wrong) + harness.too_few("rows were told", told[0], ROWS)
    return harness.closing(passed, failed)


if __name__ == "__main__":
    sys.exit(main(*sys.argv[1:]))
