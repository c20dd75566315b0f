"""A small reading of template files by the rules of docs/LANGUAGE.md told directly: where and why a file is refused, if it is,
the templates of a set as trees, and what is printed of them. And one of data: the value and its text, or why it is refused. It
shares no code with the program, and is slow and plain: it is there to be compared with."""
import collections
import functools
import json
import re
import unicodedata

from tests.oracle import table

WHITE = b" \t\r\n"
WHITES = (b" ", b"\t", b"\r", b"\n")
NAME = rb"[A-Za-z0-9_\x80-\xff]"
# the tokens but space, and comments, which are looked at first
TOKENS = re.compile(
    rb"(?P<number>[+-]?[0-9](?:" + NAME + rb"|\.)*)|(?P<word>" + NAME + rb"+)|(?P<field>\." + NAME + rb"+)|(?P<dot>\.)"
    rb"|(?P<variable>\$" + NAME + rb'*)|(?P<string>"(?:[^"\\\n]|\\[^\n])*")|(?P<raw>`[^`]*`)|(?P<char>\'(?:[^\'\\\n]|\\[^\n])*\')'
    rb"|(?P<sign>:=|[=,|()])"
)
NUMBER = re.compile(rb"([+-]?)(?:(0[xX])((?:_?[0-9a-fA-F])+)|(0[oO]|0)((?:_?[0-7])+)|(0[bB])((?:_?[01])+)|(0|[1-9](?:_?[0-9])*))")
ESCAPE = rb"\\(?:([abfnrtv\\%s])|([0-7]{3})|x([0-9a-fA-F]{2})|u([0-9a-fA-F]{4})|U([0-9a-fA-F]{8}))"
LETTERS = dict(zip(b"abfnrtv", b"\a\b\f\n\r\t\v"))
FUNCTIONS = [it.encode() for it in table.NAMES]
WORDS = {b"true": True, b"false": False, b"nil": None}
KEYWORDS = b"if with range else end break continue define template block".split()
CONTROLS = (b"if", b"with", b"range")
LEVELS, PARENTHESES, LONGEST = 500, 100, 16777216
UNREADABLE, NOT_AN_ACTION, OUT_OF_PLACE = "unclosed or unreadable action", "action not understood", "out of place"
TOO_DEEP, UNDECLARED = "nested too deeply", "undeclared variable"
OPEN, SECOND = "file ends inside a control", "second definition"
TOO_LONG = f"file longer than {LONGEST} bytes"


class Refused(Exception):
    """An action, data or a file that is refused, and why."""


# ---- pieces


# an action that ends with its first `}}`, since it has no comment, and no brace between quotes
PLAIN = re.compile(rb"""\{\{(?:[^{}"'`/\\]|"[^{}"'`/\\\n]*")*\}\}""")


def action_at(data, at):
    """The tokens of the action whose `{{` is there, None for a comment, whether it trims what is after, and where it ends."""
    found = PLAIN.match(data, at)
    if not found:
        return scanned(data, at)
    tokens, trims, end = scanned_alone(found.group())
    return tokens, trims, at + end


@functools.lru_cache(maxsize=1 << 14)
def scanned_alone(action):
    return scanned(action, 0)


def scanned(data, at):
    """As action_at, by going over the tokens. A token is its kind, its bytes, and whether space stands before it."""
    at += 4 if data[at + 2 : at + 3] == b"-" and data[at + 3 : at + 4] in WHITES else 2
    if data.startswith(b"/*", at):
        end = data.find(b"*/", at + 2)
        ends = end_at(data, end + 2) if end >= 0 else None
        if not ends:
            raise Refused(UNREADABLE)
        return (None, *ends)
    tokens, space = [], False
    while True:
        ends = end_at(data, at)
        if ends:
            return (tuple(tokens), *ends)
        if data[at : at + 1] in WHITES:
            at, space = at + 1, True
            continue
        found = TOKENS.match(data, at)
        if not found:
            raise Refused(UNREADABLE)
        tokens.append((found.lastgroup, found.group(), space))
        at, space = found.end(), False


def end_at(data, at):
    """Whether the end of an action that stands there trims, and where it ends; None where there is no end."""
    if data.startswith(b"}}", at):
        return False, at + 2
    if data[at : at + 1] in WHITES and data.startswith(b"-}}", at + 1):
        return True, at + 4
    return None


def pieces(data):
    """Each text, with the line of its first byte that is kept and its bytes, and each action, with its line and its tokens, or
    None for an unreadable one, which is the last."""
    at, line, trims = 0, 1, False
    while True:
        start = data.find(b"{{", at)
        whole = data[at:] if start < 0 else data[at:start]
        text = whole.lstrip(WHITE) if trims else whole
        cut = len(whole) - len(text)
        if start >= 0 and data[start + 2 : start + 3] == b"-" and data[start + 3 : start + 4] in WHITES:
            text = text.rstrip(WHITE)
        if text:
            yield line + whole.count(b"\n", 0, cut), text
        if start < 0:
            return
        line += whole.count(b"\n")
        try:
            tokens, trims, at = action_at(data, start)
        except Refused:
            yield line, None
            return
        if tokens is not None:
            yield line, tokens
        line += data.count(b"\n", start, at)


# ---- constants


def number(spelled):
    found = NUMBER.fullmatch(spelled)
    if not found:
        raise Refused(NOT_AN_ACTION)
    sign, hexadecimal, sixteen, octal, eight, binary, two, ten = found.groups()
    digits, base = (sixteen, 16) if hexadecimal else (eight, 8) if octal else (two, 2) if binary else (ten, 10)
    value = int(digits.replace(b"_", b""), base) * (-1 if sign == b"-" else 1)
    if not -(2**63) <= value < 2**63:
        raise Refused(NOT_AN_ACTION)
    return value


def runes(data):
    """The well-formed encodings and the single bytes of which bytes are made."""
    while data:
        size = next((size for size in (1, 2, 3, 4) if is_rune(data[:size])), 1)
        yield data[:size]
        data = data[size:]


def is_rune(data):
    try:
        return len(data.decode()) == 1
    except UnicodeDecodeError:
        return False


def unescaped(inside, quote):
    """The runes inside of a string or character, each with its number, and the bytes that it stands for."""
    escape = re.compile(ESCAPE % quote)
    while inside:
        if inside[:1] != b"\\":
            rune = next(runes(inside))
            code = ord(rune.decode(errors="replace"))
            yield code, chr(code).encode()
            inside = inside[len(rune) :]
            continue
        found = escape.match(inside)
        if not found:
            raise Refused(NOT_AN_ACTION)
        letter, octal, *hexadecimal = found.groups()
        if letter:
            code = LETTERS.get(letter[0], letter[0])
        else:
            code = int(octal, 8) if octal else int(next(filter(None, hexadecimal)), 16)
        is_byte = bool(octal or hexadecimal[0])
        if is_byte and code > 255 or 0xD800 <= code <= 0xDFFF or code > 0x10FFFF:
            raise Refused(NOT_AN_ACTION)
        yield code, bytes([code]) if is_byte else chr(code).encode()
        inside = inside[found.end() :]


@functools.lru_cache(maxsize=1 << 14)
def text(kind, spelled):
    """The bytes of a string or raw string."""
    inside = spelled[1:-1]
    if kind == "raw":
        return inside.replace(b"\r", b"")
    return b"".join(them for _, them in unescaped(inside, b'"'))


@functools.lru_cache(maxsize=1 << 14)
def character(spelled):
    """The number of a character's code."""
    codes = [code for code, _ in unescaped(spelled[1:-1], b"'")]
    if len(codes) != 1:
        raise Refused(NOT_AN_ACTION)
    return codes[0]


def quoted_rune(rune):
    """How a rune stands in a quote."""
    if not is_rune(rune):
        return b"\\x%02x" % rune[0]
    code, letters = ord(rune.decode()), {number: letter for letter, number in LETTERS.items()}
    if rune in (b'"', b"\\"):
        return b"\\" + rune
    if rune == b" " or unicodedata.category(rune.decode())[0] in "LMNPS":
        return rune
    if code in letters:
        return b"\\%c" % letters[code]
    return b"\\x%02x" % code if code < 0x80 else b"\\u%04x" % code if code < 0x10000 else b"\\U%08x" % code


@functools.lru_cache(maxsize=1 << 14)
def quote(data):
    return b'"%s"' % b"".join(map(quoted_rune, runes(data)))


# ---- trees

# A pipeline is a tuple of commands, a command one of operands, and an operand one of these three. The value None is `nil`.
Constant = collections.namedtuple("Constant", "value")
Function = collections.namedtuple("Function", "name")
# The base is `.`, a variable with its `$`, or a pipeline in parentheses; there may be no fields.
Chain = collections.namedtuple("Chain", "base fields")

# What a template says, in order: an action, or a text, an `else` or an `end` with its bytes.
Said = collections.namedtuple("Said", "kind line said action")
# A text or an action of the tree, with its bytes or its Action, and what stands in the parts of a control.
Node = collections.namedtuple("Node", "kind line is_ body other")


def said_operand(it):
    """How an operand is printed."""
    if isinstance(it, Function):
        return it.name
    if isinstance(it, Constant):
        if it.value is None or isinstance(it.value, bool):
            return {None: b"nil", True: b"true", False: b"false"}[it.value]
        return quote(it.value) if isinstance(it.value, bytes) else b"%d" % it.value
    base = b"(%s)" % said_pipeline(it.base) if isinstance(it.base, tuple) else it.base
    fields = b"".join(b"." + field for field in it.fields)
    return fields if fields and base == b"." else base + fields


def said_pipeline(commands):
    """How a pipeline is printed."""
    return b" | ".join(b" ".join(map(said_operand, command)) for command in commands)


# ---- the grammar of an action


NO_TOKEN = (None, None, False)  # after the last one


class Action:
    """What an action is, by the grammar: its kind, the name of a template in it, the variables in front of a sign, the sign, and
    the pipeline; the variables that it declares and those that it looks up, and whether it has parentheses that are too deep."""

    def __init__(self, tokens):
        self.tokens, self.at, self.depth = (*tokens, *[NO_TOKEN] * 4), 0, 0
        self.name, self.variables, self.sign, self.pipeline = None, [], None, None
        self.used, self.is_too_deep = [], False
        self.kind = self.read()
        self.need(self.is_at_end())
        self.declared = self.variables if self.sign == b":=" else []

    def need(self, holds):
        if not holds:
            raise Refused(NOT_AN_ACTION)

    def is_at_end(self):
        return self.tokens[self.at] is NO_TOKEN

    def take(self):
        self.at += 1
        return self.tokens[self.at - 1]

    def takes(self, *wanted):
        """Whether the next token is one of these words and signs, which is then taken."""
        kind, spelled, _ = self.tokens[self.at]
        is_there = kind in ("sign", "word") and spelled in wanted
        self.at += is_there
        return is_there

    def read(self):
        """The kind, once the rest is read."""
        if not self.takes(*KEYWORDS):
            self.bound()
            return b"pipeline"
        kind = self.tokens[self.at - 1][1]
        if kind == b"else" and self.takes(b"if", b"with"):
            kind = b"else " + self.tokens[self.at - 1][1]
            self.bound()
        elif kind in CONTROLS:
            self.bound(is_range=kind == b"range")
        elif kind in (b"define", b"template", b"block"):
            self.named(kind)
        return kind

    def named(self, kind):
        """The name of a template, and the pipeline after it."""
        self.need(self.tokens[self.at][0] in ("string", "raw"))
        self.name = text(*self.take()[:2])
        if kind == b"block" or kind == b"template" and not self.is_at_end():
            self.pipeline = self.commands()

    def bound(self, is_range=False):
        """A pipeline, perhaps after variables and a sign."""
        kinds, signs, _ = zip(*self.tokens[self.at : self.at + 4])
        if kinds[0] == "variable" and signs[1] in (b":=", b"="):
            self.need(signs[0] != b"$" and not (is_range and signs[1] == b"="))
            self.variables, self.sign = [signs[0][1:]], signs[1]
            self.at += 2
        elif kinds[0] == kinds[2] == "variable" and signs[1] == b"," and signs[3] == b":=":
            self.need(is_range and b"$" not in (signs[0], signs[2]))
            self.variables, self.sign = [signs[0][1:], signs[2][1:]], signs[3]
            self.at += 4
        self.pipeline = self.commands()
        self.used += self.variables if self.sign == b"=" else []

    @functools.cached_property
    def said(self):
        """How it is printed; a block as a call, and an `else if` or `else with` as the control in it."""
        keyword = {b"pipeline": b"", b"block": b"template"}.get(self.kind, self.kind.split()[-1])
        names = b", ".join(b"$" + name for name in self.variables)
        parts = [keyword, b"" if self.name is None else quote(self.name), names, self.sign or b""]
        return b" ".join(part for part in [*parts, said_pipeline(self.pipeline or ())] if part)

    def commands(self):
        """A pipeline."""
        read = [self.command()]
        while self.takes(b"|"):
            kind, spelled, _ = self.tokens[self.at]
            self.need(kind not in ("number", "string", "raw", "char", "dot") and spelled not in (b"true", b"false", b"nil"))
            read.append(self.command())
        return tuple(read)

    def command(self):
        read = [self.operand()]
        while not self.is_at_end():
            kind, spelled, is_apart = self.tokens[self.at]
            if kind == "sign" and spelled in (b"|", b")"):
                break
            self.need(is_apart)
            read.append(self.operand())
        return tuple(read)

    def operand(self):
        self.need(not self.is_at_end())
        kind, spelled, _ = self.take()
        if kind == "number":
            return Constant(number(spelled))
        if kind in ("string", "raw"):
            return Constant(text(kind, spelled))
        if kind == "char":
            return Constant(character(spelled))
        if kind == "word":
            self.need(spelled in (*WORDS, *FUNCTIONS))
            return Constant(WORDS[spelled]) if spelled in WORDS else Function(spelled)
        if kind == "field":
            self.need(not spelled[1:2].isdigit())
            return Chain(b".", (spelled[1:], *self.fields()))
        if kind == "variable":
            self.used += [spelled[1:]] * (spelled != b"$")
            return Chain(spelled, self.fields())
        if kind == "sign":
            self.need(spelled == b"(")
            return Chain(self.group(), self.fields())
        return Chain(b".", ())

    def group(self):
        self.depth += 1
        self.is_too_deep |= self.depth > PARENTHESES
        read = self.commands()
        self.need(self.takes(b")"))
        self.depth -= 1
        return read

    def fields(self):
        read = []
        while self.tokens[self.at][0] == "field" and not self.tokens[self.at][2]:
            read.append(self.take()[1][1:])
            self.need(not read[-1][:1].isdigit())
        return tuple(read)


@functools.lru_cache(maxsize=1 << 14)
def action_of(tokens):
    """The action that these tokens are."""
    return Action(tokens)


# ---- a file


class Frame:
    """What is open: a control, a define or a block."""

    def __init__(self, kind, outer, names, body):
        self.kind, self.outer, self.names, self.body = kind, outer, names, body
        self.has_else, self.levels = False, int(kind != b"define")


class Body:
    """What a template says, and the place of its file in a set."""

    def __init__(self, name, line):
        self.name, self.line, self.says, self.place = name, line, [], None

    def is_blank(self):
        return all(it.kind == b"text" and not it.said.strip(WHITE) for it in self.says)

    def end(self, line, ends):
        """The end of a control and its else branches, with no else part where that is empty."""
        if self.says[-1].kind == b"else":
            self.says.pop()
        self.says += [Said(b"end", line, b"end", None)] * ends

    def tree(self):
        """Its nodes. An `else if` or `else with` is the control that is the whole else part."""
        nodes, outer = [], []
        for it in self.says:
            if it.kind == b"else":
                nodes = outer[-1][-1].other
            elif it.kind == b"end":
                nodes = outer.pop()
            else:
                kind = it.kind.split()[-1]
                nodes.append(Node(kind, it.line, it.action or it.said, [], []))
                if kind in CONTROLS:
                    outer.append(nodes)
                    nodes = nodes[-1].body
        return nodes


class Reading:
    """The file so far, action by action."""

    def __init__(self, name):
        self.frames, self.names = [], frozenset()
        self.own = Body(name, 1)
        self.body, self.bodies = self.own, []

    def top(self):
        return self.frames[-1] if self.frames else None

    def text(self, line, it):
        self.body.says.append(Said(b"text", line, it, None))

    def is_in_range(self):
        for it in reversed(self.frames):
            if it.kind in (b"define", b"block"):
                return False
            if it.kind == b"range" and not it.has_else:
                return True
        return False

    def may_stand(self, kind):
        top = self.top()
        if kind == b"end":
            return bool(top)
        if kind == b"define":
            return not top
        if kind in (b"break", b"continue"):
            return self.is_in_range()
        if kind.startswith(b"else"):
            wanted = {b"else": CONTROLS, b"else if": (b"if",), b"else with": (b"with",)}[kind]
            return bool(top) and top.kind in wanted and not top.has_else
        return True

    def action(self, line, tokens):
        """Takes one action more, or raises why it is refused."""
        if tokens is None:
            raise Refused(UNREADABLE)
        it = action_of(tokens)
        if not self.may_stand(it.kind):
            raise Refused(OUT_OF_PLACE)
        opens = it.kind in (*CONTROLS, b"block", b"else if", b"else with")
        if it.is_too_deep or opens and sum(frame.levels for frame in self.frames) >= LEVELS:
            raise Refused(TOO_DEEP)
        if it.kind in (b"else if", b"else with"):
            self.names = self.top().names
        if it.used and set(it.used) - self.names:
            raise Refused(UNDECLARED)
        self.step(line, it)

    def step(self, line, it):
        if it.kind == b"end":
            frame = self.frames.pop()
            if frame.kind in CONTROLS:
                self.body.end(line, frame.levels)
            self.names, self.body = frame.outer, frame.body
            return
        if it.kind.startswith(b"else"):
            self.body.says.append(Said(b"else", line, b"else", None))
        if it.kind not in (b"else", b"define"):
            self.body.says.append(Said(it.kind, line, None, it))
        self.names = self.opened(line, it, self.names | set(it.declared) if it.declared else self.names)

    def opened(self, line, it, names):
        """The names that are in scope after an action with these, and what it opens."""
        if it.kind in CONTROLS:
            self.frames.append(Frame(it.kind, self.names, self.names if it.kind == b"range" else names, self.body))
        elif it.kind in (b"define", b"block"):
            self.frames.append(Frame(it.kind, self.names, frozenset(), self.body))
            self.body = Body(it.name, line)
            self.bodies.append(self.body)
            return frozenset()
        elif it.kind.startswith(b"else"):
            frame = self.top()
            frame.names |= set(it.declared)
            frame.has_else = it.kind == b"else"
            frame.levels += it.kind != b"else"
            return frame.names
        return names

    def second(self):
        """The line of the first second definition, if there is one."""
        seen = set()
        for it in [*self.bodies, self.own]:
            if not it.is_blank():
                if it.name in seen:
                    return it.line
                seen.add(it.name)
        return None


def read(name, data):
    """The templates of a file of this base name, read alone, in the order of their headers, its own as the last; or the line at
    which the file is refused, and why."""
    if len(data) > LONGEST:
        return None, (1, TOO_LONG)
    reading = Reading(name)
    for line, it in pieces(data):
        if isinstance(it, bytes):
            reading.text(line, it)
            continue
        try:
            reading.action(line, it)
        except Refused as why:
            return None, (line, str(why))
    if reading.frames:
        return None, (1 + data.count(b"\n"), OPEN)
    line = reading.second()
    return (None, (line, SECOND)) if line else ([*reading.bodies, reading.own], None)


def refusal(name, data):
    """The line at which a file of this base name is refused, and why; None where it is accepted, read alone."""
    return read(name, data)[1]


# ---- a set of files


def read_set(files):
    """The bodies of the set of files, each with its base name, by their names and in order; or of the first that is refused its
    place, line and reason."""
    bodies = {}
    for place, (name, data) in enumerate(files):
        added, refused = read(name, data)
        if refused:
            return None, (place, *refused)
        for body in added:
            body.place = place
            if body.name not in bodies or not body.is_blank():
                bodies[body.name] = body
    return bodies, None


def printed(files):
    """What is printed of the set of files, or of the first that is refused its place, line and reason."""
    bodies, refused = read_set(files)
    if refused:
        return None, refused
    says = []
    for name, body in bodies.items():
        ends = Said(b"end", 0, b"end", None), Said(b"text", 0, b"\n", None)
        says += [Said(b"define", 0, b"define " + quote(name), None), *body.says, *ends]
    return joined(says), None


def joined(says):
    """Texts and actions, with a comment between two texts, and no brace of a text right before a `{{`."""
    before, out = b"", []
    for it in says:
        opening = b" {{- " if before.endswith(b"{") else b"{{"
        if it.kind == b"text":
            out += [opening + b"/**/}}"] * bool(before) + [it.said]
            before = it.said
        else:
            out.append(opening + (it.action.said if it.action else it.said) + b"}}")
            before = b""
    return b"".join(out)


# ---- data

NOT_JSON, NOT_WHOLE = "not JSON", "number not whole or out of range"


def deepest(data):
    """How deep lists and maps of JSON are nested, outside of its texts."""
    depth = most = 0
    for it in re.findall(rb'"(?:[^"\\]|\\.)*"|[][{}]', data, re.DOTALL):
        depth += {b"[": 1, b"{": 1, b"]": -1, b"}": -1}.get(it, 0)
        most = max(most, depth)
    return most


class Flaw:
    """A number that is refused, where it is looked at."""


def flaw(spelled):
    if abs(float(spelled)) == float("inf"):
        raise Refused(NOT_JSON)
    return Flaw()


def whole(spelled):
    value = int(spelled)
    return value if -(2**63) <= value < 2**63 and spelled != "-0" else flaw(spelled)


def no_json(_):
    raise Refused(NOT_JSON)


def has_flaw(value):
    """Whether a number in it is refused. One that a later member of its key hides is not there any more."""
    parts = value if isinstance(value, list) else value.values() if isinstance(value, dict) else ()
    return isinstance(value, Flaw) or any(map(has_flaw, parts))


def data_value(data):
    """The value of data."""
    if deepest(data) > 127:
        raise Refused(NOT_JSON)
    try:
        value = json.loads(data.decode(), parse_int=whole, parse_float=flaw, parse_constant=no_json)
        # no half of a pair of surrogates
        json.dumps(value, ensure_ascii=False, default=lambda _: 0).encode()
    except ValueError as why:
        raise Refused(NOT_JSON) from why
    if has_flaw(value):
        raise Refused(NOT_WHOLE)
    return value


def inner(value):
    """The text of a value inside of a list or map."""
    if value is None:
        return "<nil>"
    if isinstance(value, bool):
        return str(value).lower()
    if isinstance(value, list):
        return f"[{' '.join(map(inner, value))}]"
    if isinstance(value, dict):
        return f"map[{' '.join(f'{key}:{inner(value[key])}' for key in sorted(value, key=str.encode))}]"
    return str(value)


def data_text(data):
    """What `{{.}}` puts out for data."""
    value = data_value(data)
    return ("<no value>" if value is None else inner(value)).encode()
