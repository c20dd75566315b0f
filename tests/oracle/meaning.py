"""What a run puts out and how it ends, by the rules of docs/LANGUAGE.md and docs/COMMAND.md told directly, over the trees that
reading.py gives: its status, its text and its line. It shares no code with the program, and is slow and plain: it is there to
be compared with. Texts are bytes, and lists and maps those of Python."""
import collections
import functools
import itertools
import operator
import os
import re

from tests.oracle import reading, table

Options = collections.namedtuple("Options", "missingkey name depth steps", defaults=(b"default", None, 1000, 1000000000))

WRONG_COUNT, WRONG_KIND = b"wrong number of arguments", b"wrong kind of argument"
OUT_OF_RANGE, NOT_COMPARABLE, REFUSED = b"out of range", b"can't be compared", b"format refused"
NO_RANGE, NO_FUNCTION, NIL_COMMAND = b"can't range over this value", b"not a function", b"nil is not a command"
BREAK, CONTINUE = b"break", b"continue"


class Nothing:
    """The lack of a value. A null that stands in the data is None."""


NOTHING = Nothing()


class Fault(Exception):
    """What ends a run, as the line has it."""


# ---- values


def of_data(value):
    """A value of data, with its texts as bytes."""
    if isinstance(value, str):
        return value.encode()
    if isinstance(value, list):
        return [of_data(it) for it in value]
    if isinstance(value, dict):
        return {key.encode(): of_data(it) for key, it in value.items()}
    return value


def lacks(value):
    """Whether it is nothing or null."""
    return value is None or value is NOTHING


def is_number(value):
    return isinstance(value, int) and not isinstance(value, bool)


def is_empty(value):
    return lacks(value) or not value


def inner(value):
    """The text of a value inside of a list or map."""
    if lacks(value):
        return b"<nil>"
    if isinstance(value, bool):
        return b"true" if value else b"false"
    if isinstance(value, list):
        return b"[%s]" % b" ".join(map(inner, value))
    if isinstance(value, dict):
        return b"map[%s]" % b" ".join(key + b":" + inner(value[key]) for key in sorted(value))
    return value if isinstance(value, bytes) else b"%d" % value


def shown(value):
    """The text that an action puts out."""
    return b"<no value>" if lacks(value) else inner(value)


# ---- functions: each takes the values of its operands


def not_(value):
    return is_empty(value)


def len_(value):
    if not isinstance(value, (bytes, list, dict)):
        raise Fault(WRONG_KIND)
    return len(value)


def item(whole, key):
    """What stands at one index."""
    if isinstance(whole, dict) and isinstance(key, bytes):
        return whole.get(key)
    if not isinstance(whole, (bytes, list)) or not is_number(key):
        raise Fault(WRONG_KIND)
    if not 0 <= key < len(whole):
        raise Fault(OUT_OF_RANGE)
    return whole[key]


def index(whole, *keys):
    if not keys and lacks(whole):
        raise Fault(WRONG_KIND)
    return functools.reduce(item, keys, whole)


def slice_(whole, *bounds):
    if not isinstance(whole, (bytes, list)) or not all(map(is_number, bounds)):
        raise Fault(WRONG_KIND)
    start, end = [*bounds, *(0, len(whole))[len(bounds) :]]
    if not 0 <= start <= end <= len(whole):
        raise Fault(OUT_OF_RANGE)
    return whole[start:end]


def print_(*values):
    """The texts, with a space between two neighbours of which neither is a text."""
    parts = [inner(it) for it in values[:1]]
    for before, it in zip(values, values[1:]):
        is_apart = not isinstance(before, bytes) and not isinstance(it, bytes)
        parts.append(b" " * is_apart + inner(it))
    return b"".join(parts)


def println(*values):
    return b" ".join(map(inner, values)) + b"\n"


def with_no_value(values):
    """The joined text, in which nothing is a text."""
    return print_(*[b"<no value>" if lacks(it) else it for it in values])


def html(*values):
    marks = {b'"': b"&#34;", b"'": b"&#39;", b"&": b"&amp;", b"<": b"&lt;", b">": b"&gt;", b"\0": "\ufffd".encode()}
    return re.sub(rb"[\"'&<>\0]", lambda found: marks[found.group()], with_no_value(values))


def urlquery(*values):
    def escape(found):
        return b"+" if found.group() == b" " else b"%%%02X" % ord(found.group())

    return re.sub(rb"[^A-Za-z0-9_.~-]", escape, with_no_value(values))


def are_equal(one, other):
    if lacks(one) or lacks(other):
        return lacks(one) and lacks(other)
    if type(one) is not type(other) or isinstance(one, (list, dict)):
        raise Fault(NOT_COMPARABLE)
    return one == other


def eq(first, *others):
    return any(are_equal(first, it) for it in others)


def ne(one, other):
    return not are_equal(one, other)


def ordered(compare, one, other):
    if not (is_number(one) and is_number(other) or isinstance(one, bytes) and isinstance(other, bytes)):
        raise Fault(NOT_COMPARABLE)
    return compare(one, other)


# ---- printf

FORM = re.compile(rb"%%|%([-+0 ]*)([0-9]{0,4})(?:(\.)([0-9]{0,4}))?([vdobxXsqct])")
DIGITS = {b"d": "d", b"o": "o", b"b": "b", b"x": "x", b"X": "X"}


def printf(format_, *values):
    if not isinstance(format_, bytes):
        raise Fault(WRONG_KIND)
    said, at, left = [], 0, list(values)
    while at < len(format_):
        start = format_.find(b"%", at)
        end = len(format_) if start < 0 else start
        said.append(format_[at:end])
        found = FORM.match(format_, end)
        if start >= 0:
            said.append(form(found, left))
        at = found.end() if found else end
    if left:
        raise Fault(REFUSED)
    return b"".join(said)


def form(found, left):
    """What a form prints for the next of the arguments that are left, which it takes."""
    if found and found.group() == b"%%":
        return b"%"
    if not found or not left:
        raise Fault(REFUSED)
    flags, width, point, precision, verb = found.groups()
    value, width = left.pop(0), int(width or 0)
    if point and verb != b"s":
        raise Fault(REFUSED)
    if is_number(value) and verb in DIGITS:
        body = signed(value, flags, width, DIGITS[verb])
    elif set(flags) - set(b"-") or isinstance(value, (list, dict)) and (flags or width):
        raise Fault(REFUSED)
    else:
        body = plain(verb, value)
    if point:
        body = b"".join(itertools.islice(reading.runes(body), int(precision or 0)))
    padding = b" " * (width - len(list(reading.runes(body))))
    return body + padding if b"-" in flags else padding + body


def signed(value, flags, width, base):
    """A number, with zeros after its sign where they are asked for."""
    sign = "-" if value < 0 else "+" if b"+" in flags else " " if b" " in flags else ""
    zeros = width - len(sign) if b"0" in flags and b"-" not in flags else 0
    return (sign + format(abs(value), base).zfill(zeros)).encode()


def plain(verb, value):
    """A value of another form than those of numbers."""
    if verb == b"v":
        return inner(value)
    if isinstance(value, bytes) and verb in b"sqxX":
        return {b"s": value, b"q": reading.quote(value), b"x": value.hex().encode(), b"X": value.hex().upper().encode()}[verb]
    if is_number(value) and verb == b"c":
        is_code = 0 <= value < 0xD800 or 0xE000 <= value <= 0x10FFFF
        return (chr(value) if is_code else "\ufffd").encode()
    if isinstance(value, bool) and verb == b"t":
        return inner(value)
    raise Fault(REFUSED)


# What each function gives. `and` and `or` may leave arguments unlooked at.
GIVES = {
    **{"and": None, "or": None, "not": not_, "len": len_, "index": index, "slice": slice_, "print": print_, "println": println},
    **{"printf": printf, "html": html, "urlquery": urlquery, "eq": eq, "ne": ne},
    **{name: functools.partial(ordered, getattr(operator, name)) for name in ("lt", "le", "gt", "ge")},
}
# Each function with what it gives, and its least and greatest number of arguments.
FUNCTIONS = {name.encode(): (GIVES[name], *counts) for name, counts in table.COUNTS.items()}


# ---- a run


class Frame:
    """A call: its template, how deep it is nested, its dots and its variables."""

    def __init__(self, body, depth, dot):
        self.body, self.depth, self.start, self.dot = body, depth, dot, dot
        self.variables = []

    def place(self, name):
        """Where the newest variable of this name stands."""
        return max(at for at, (its, _) in enumerate(self.variables) if its == name)


class Run:
    """A run over a set: what it has put out, the steps that are left, and the template and the line where it is."""

    def __init__(self, bodies, options):
        self.bodies, self.options = bodies, options
        self.trees, self.out, self.left, self.at = {}, [], options.steps, None

    def template(self, name, depth, dot):
        """Runs a template of the set."""
        body = self.bodies[name]
        if name not in self.trees:
            self.trees[name] = body.tree()
        self.nodes(self.trees[name], Frame(body, depth, dot))

    def nodes(self, nodes, frame):
        """Runs nodes with a scope of their own; tells by which of break and continue they were left, if by one."""
        kept, left = len(frame.variables), None
        for node in nodes:
            left = self.node(node, frame)
            if left:
                break
        del frame.variables[kept:]
        return left

    def step(self, node, frame):
        self.at = frame.body, node.line
        if not self.left:
            raise Fault(b"more than %d steps" % self.options.steps)
        self.left -= 1

    def node(self, node, frame):
        self.step(node, frame)
        if node.kind == b"text":
            self.out.append(node.is_)
        elif node.kind == b"pipeline":
            value = self.bound(node.is_, frame)
            self.out += [] if node.is_.sign else [shown(value)]
        elif node.kind in (b"if", b"with"):
            return self.branch(node, frame)
        elif node.kind == b"range":
            return self.range(node, frame)
        elif node.kind in (b"template", b"block"):
            self.call(node.is_, frame)
        else:
            return node.kind
        return None

    def branch(self, node, frame):
        """An `if` or `with`; the variable of its header is seen in both parts."""
        kept, dot = len(frame.variables), frame.dot
        value = self.bound(node.is_, frame)
        if node.kind == b"with" and not is_empty(value):
            frame.dot = value
        left = self.nodes(node.other if is_empty(value) else node.body, frame)
        frame.dot = dot
        del frame.variables[kept:]
        return left

    def range(self, node, frame):
        names = node.is_.variables
        elements = self.elements(self.pipeline(node.is_.pipeline, frame), len(names))
        kept, dot, is_blank = len(frame.variables), frame.dot, True
        for key, element in elements:
            self.step(node, frame)
            frame.variables += zip(names, (key, element)[2 - len(names) :])
            frame.dot, is_blank = element, False
            left = self.nodes(node.body, frame)
            del frame.variables[kept:]
            if left == BREAK:
                break
        frame.dot = dot
        return self.nodes(node.other, frame) if is_blank else None

    def elements(self, value, names):
        """The keys and elements that a range visits, one by one."""
        if lacks(value):
            return iter(())
        if isinstance(value, list):
            return enumerate(value)
        if isinstance(value, dict):
            return iter(sorted(value.items(), key=operator.itemgetter(0)))
        if is_number(value) and names < 2:
            return ((number, number) for number in range(value))
        raise Fault(NO_RANGE)

    def call(self, action, frame):
        if action.name not in self.bodies:
            raise Fault(b"no template " + reading.quote(action.name))
        if frame.depth == self.options.depth:
            raise Fault(b"calls deeper than %d" % self.options.depth)
        value = self.pipeline(action.pipeline, frame) if action.pipeline else NOTHING
        self.template(action.name, frame.depth + 1, value)

    # ---- pipelines

    def bound(self, action, frame):
        """The value of a pipeline, which is declared or assigned where the action says so."""
        value = self.pipeline(action.pipeline, frame)
        if action.sign == b":=":
            frame.variables.append((action.variables[0], value))
        elif action.sign == b"=":
            name = action.variables[0]
            frame.variables[frame.place(name)] = name, value
        return value

    def pipeline(self, commands, frame):
        piped = []
        for command in commands:
            value = self.command(command, piped, frame)
            piped = [NOTHING if value is None else value]
        return piped[0]

    def command(self, operands, piped, frame):
        first, *others = operands
        if isinstance(first, reading.Function):
            return self.function(first.name, others, piped, frame)
        if others or piped:
            raise Fault(NO_FUNCTION)
        if isinstance(first, reading.Constant) and first.value is None:
            raise Fault(NIL_COMMAND)
        return self.operand(first, frame)

    def operand(self, it, frame):
        if isinstance(it, reading.Function):
            return self.function(it.name, [], [], frame)
        if isinstance(it, reading.Constant):
            return NOTHING if it.value is None else it.value
        if isinstance(it.base, tuple):
            value = self.pipeline(it.base, frame)
        elif it.base == b".":
            value = frame.dot
        else:
            value = frame.start if it.base == b"$" else frame.variables[frame.place(it.base[1:])][1]
        return functools.reduce(self.field, it.fields, value)

    def field(self, value, key):
        if isinstance(value, dict) and key in value:
            return value[key]
        if value is not NOTHING and not isinstance(value, dict):
            raise Fault(b"no field %s here" % reading.quote(key))
        if self.options.missingkey == b"error":
            raise Fault(b"no entry for key " + reading.quote(key))
        return None if self.options.missingkey == b"zero" and isinstance(value, dict) else NOTHING

    def function(self, name, operands, piped, frame):
        """A call: first the number of arguments is looked at, then the operands, and then what the function says of them."""
        gives, least, most = FUNCTIONS[name]
        if not least <= len(operands) + len(piped) <= most:
            raise Fault(name + b": " + WRONG_COUNT)
        values = itertools.chain((self.operand(it, frame) for it in operands), piped)
        if name in (b"and", b"or"):
            return self.deciding(name == b"and", values)
        values = list(values)
        try:
            return gives(*values)
        except Fault as why:
            raise Fault(name + b": " + why.args[0]) from why

    def deciding(self, wanted, values):
        """The first value that is empty, or is not, else the last; none after it is looked at."""
        for value in values:
            if is_empty(value) == wanted:
                break
        return value


def outcome(files, data, options):
    """The status, the output and the errors of the program for these files and this data, each with its path."""
    bodies, refused = reading.read_set([(os.path.basename(path), what) for path, what in files])
    if refused:
        place, line, why = refused
        return 4, b"", b"tmpl: %s:%d: %s\n" % (files[place][0], line, why.encode())
    try:
        dot = of_data(reading.data_value(data[1])) if data else NOTHING
    except reading.Refused as why:
        return 5, b"", b"tmpl: %s: %s\n" % (data[0], str(why).encode())
    name = os.path.basename(files[0][0]) if options.name is None else options.name
    if name not in bodies:
        return 4, b"", b"tmpl: no template %s\n" % reading.quote(name)
    run = Run(bodies, options)
    try:
        # data that is null is nothing
        run.template(name, 1, NOTHING if dot is None else dot)
    except Fault as why:
        body, line = run.at
        told = files[body.place][0], line, reading.quote(body.name), why.args[0]
        return 1, b"".join(run.out), b"tmpl: %s:%d: in %s: %s\n" % told
    return 0, b"".join(run.out), b""
