"""What calls of functions give, told directly as docs/LANGUAGE.md has it: each number of arguments, each pair of kinds that
is compared, parts of texts, lists and maps, and the forms of `printf`. tables.py runs them; they share no code with the
program. A case is a template, what it puts out, or nothing and the fault that it ends with, and the data."""
import itertools
import json
import string

from tests.oracle.table import COUNTS

DATA = {"n": None, "e": [], "l": [7, [5, 6], None], "m": {"a": [5], "1": 1}}
WRONG_COUNT, WRONG_KIND = "wrong number of arguments", "wrong kind of argument"
OUT_OF_RANGE, NOT_COMPARABLE, REFUSED = "out of range", "can't be compared", "format refused"

# an operand of each kind: nothing, null, a truth value, a number, a text, a made text, a list and a map
KINDS = ["nil", ".n", "true", "1", '"1"', "(print 1)", ".l", ".m"]
# whether the kind of the row and that of the column are equal: `=` if so, `!` if not, `?` where they can't be compared
EQUAL = ["==!!!!!!", "==!!!!!!", "!!=?????", "!!?=????", "!!??==??", "!!??==??", "!!??????", "!!??????"]
# `.` where the two are in order, and here the same
ORDERED = ["????????", "????????", "????????", "???.????", "????..??", "????..??", "????????", "????????"]

# what has parts, and what has not
WHOLES = {
    **{"nil": None, ".n": None, "true": True, "3": 3, '""': "", '"abc"': "abc", '(print "ab" 1)': "ab1"},
    **{".e": DATA["e"], ".l": DATA["l"], ".m": DATA["m"]},
}
INDEXES = {"-1": -1, "0": 0, "1": 1, "3": 3, '"a"': "a", '"1"': "1", '"z"': "z", "nil": None}
BOUNDS = {"-1": -1, "0": 0, "2": 2, "3": 3, "4": 4, '"1"': "1", "nil": None}

VERBS = "vdobxXsqct"
FLAGS = ["", "-", "+", "0", " ", "#", "-0", "+0", " 0", "+ -"]
VALUES = {"42": 42, "-42": -42, '"hé"': "hé", "true": True, "nil": None, ".l": DATA["l"], ".m": DATA["m"]}
# an argument that a form of the verb takes
FITTING = {**dict.fromkeys("vdobxXc", "1"), **dict.fromkeys("sq", '"a"'), "t": "true"}

# what is no form, too few and too many arguments, and arguments of which one does not fit
SHAPES = [
    *('"%"', '"a%"', '"%5" 1', '"%-" 1', '"%." "a"', '"%.3" "a"', '"%5%"', '"%-%"', '"% %"', '"%.2%"'),
    *('"%*d" 1 2', '"%.*s" 1 "a"', '"%[1]d" 1', '"%ld" 1', '"%5-d" 1', '"%5+d" 1', '"%.-3s" "a"', '"%..3s" "a"'),
    *('"%12345d" 1', '"%10000s" "a"', '"%012345d" 1', '"%.12345s" "a"', '"%.00000s" "a"'),
    *('"%d"', '"%d%d" 1', '"%d" 1 2', '"" 1', '"a" nil', '"%%" 1', '"%v%v" 1 2 3'),
    *('"%d%d" 1 "a"', '"%s%d" 1 1', '"a%db" "x"'),
]
# first arguments of `printf` that are no texts
NO_FORMATS = ["1", "nil", ".n", "true 1", ".l 1", ".m"]


def text(value):
    """The text of a value inside a list or map."""
    if value is None or isinstance(value, bool):
        return {None: "<nil>", True: "true", False: "false"}[value]
    if isinstance(value, list):
        return f"[{' '.join(map(text, value))}]"
    if isinstance(value, dict):
        return f"map[{' '.join(f'{key}:{text(value[key])}' for key in sorted(value))}]"
    return str(value)


def case(name, arguments, came):
    """A call with what came of it: a text, or a fault, which is a list of one."""
    source = "{{%s}}" % " ".join([name, *arguments])
    if isinstance(came, list):
        return source, None, f"{name}: {came[0]}", json.dumps(DATA)
    return source, came, None, json.dumps(DATA)


def of_nils(name, count):
    """What a function gives for nil, this many times."""
    least, most = COUNTS[name]
    if not least <= count <= most:
        return [WRONG_COUNT]
    if name in ("len", "index", "slice", "printf"):
        return [WRONG_KIND]
    if name in ("lt", "le", "gt", "ge"):
        return [NOT_COMPARABLE]
    # nothing is no text to print, with a space between two, and a text to html and urlquery
    printed = " ".join(["<nil>"] * count)
    made = {"print": printed, "println": printed + "\n", "html": "&lt;no value&gt;" * count, "urlquery": "%3Cno+value%3E" * count}
    return {**made, "and": "<no value>", "or": "<no value>", "not": "true", "eq": "true", "ne": "false"}[name]


def counts():
    for name, count in itertools.product(COUNTS, range(5)):
        yield case(name, ["nil"] * count, of_nils(name, count))


def comparisons():
    """Each pair of kinds."""
    says = {"eq": {"=": "true", "!": "false"}, "ne": {"=": "false", "!": "true"}}
    says |= {"lt": {".": "false"}, "le": {".": "true"}, "gt": {".": "false"}, "ge": {".": "true"}}
    for name, (i, a), (j, b) in itertools.product(says, enumerate(KINDS), enumerate(KINDS)):
        sign = (EQUAL if name in ("eq", "ne") else ORDERED)[i][j]
        yield case(name, [a, b], says[name].get(sign, [NOT_COMPARABLE]))


def index(whole, keys):
    """What stands at these keys, or a fault: from left to right."""
    if not keys and whole is None:
        return [WRONG_KIND]
    for key in keys:
        if isinstance(whole, (str, list)) and isinstance(key, int):
            if not 0 <= key < len(whole):
                return [OUT_OF_RANGE]
            whole = ord(whole[key]) if isinstance(whole, str) else whole[key]
        elif isinstance(whole, dict) and isinstance(key, str):
            whole = whole.get(key)
        else:
            return [WRONG_KIND]
    return "<no value>" if whole is None else text(whole)


def cut(whole, bounds):
    """What stands between these bounds, or a fault: all kinds are looked at before the range."""
    if not isinstance(whole, (str, list)) or not all(isinstance(bound, int) for bound in bounds):
        return [WRONG_KIND]
    start, end = [*bounds, *(0, len(whole))[len(bounds) :]]
    return text(whole[start:end]) if 0 <= start <= end <= len(whole) else [OUT_OF_RANGE]


def parts():
    for name, told, places in (("index", index, INDEXES), ("slice", cut, BOUNDS)):
        for whole, count in itertools.product(WHOLES, range(3)):
            for at in itertools.product(places, repeat=count):
                yield case(name, [whole, *at], told(WHOLES[whole], [places[it] for it in at]))
    for whole, value in WHOLES.items():
        yield case("len", [whole], str(len(value)) if isinstance(value, (str, list, dict)) else [WRONG_KIND])


def body(flags, width, verb, value):
    """What a form prints before it is padded with spaces, or nothing where it is refused."""
    kind = type(value)
    if verb in "dobxX" and kind is int:
        sign = "-" if value < 0 else "+" if "+" in flags else " " if " " in flags else ""
        zeros = width - len(sign) if "0" in flags and "-" not in flags else 0
        return sign + format(abs(value), verb).zfill(zeros) if set(flags) <= set("-+0 ") else None
    if set(flags) - set("-") or verb == "v" and kind in (list, dict) and (flags or width):
        return None
    if verb == "v":
        return text(value)
    if kind is str:
        return {"s": value, "q": f'"{value}"', "x": value.encode().hex(), "X": value.encode().hex().upper()}.get(verb)
    if (verb, kind) == ("c", int):
        return chr(value) if value >= 0 else "\ufffd"
    return text(value) if (verb, kind) == ("t", bool) else None


def forms():
    for flags, width, verb, value in itertools.product(FLAGS, (0, 5), VERBS, VALUES):
        came = body(flags, width, verb, VALUES[value])
        if came is not None:
            came = came.ljust(width) if "-" in flags else came.rjust(width)
        form = f"%{flags}{width or ''}{verb}"
        yield case("printf", [f'"{form}"', value], [REFUSED] if came is None else came)


def refused_forms():
    for verb, precision in itertools.product(VERBS.replace("s", ""), (".", ".3", "5.3")):
        yield case("printf", [f'"%{precision}{verb}"', FITTING[verb]], [REFUSED])
    for verb, value in itertools.product(string.ascii_letters + "!é", ("1", '"a"')):
        if verb not in VERBS:
            yield case("printf", [f'"%{verb}"', value], [REFUSED])
    for shape in SHAPES:
        yield case("printf", [shape], [REFUSED])
    for first in NO_FORMATS:
        yield case("printf", [first], [WRONG_KIND])


def cases():
    return [*counts(), *comparisons(), *parts(), *forms(), *refused_forms()]
