"""Runs the program over each byte, escape, name and call of functions, and compares the output with the rules stated a second time. These
are as docs/LANGUAGE.md has them: what stands after a backslash in strings and characters, each byte through `html`, `urlquery` and the
quote, words that are a function's name but for a letter, actions of one byte and of two, each byte between quotes, numbers, actions that
are none, and the calls of functions.py. It shares no code with the program. TMPL=PATH names another build."""
import itertools
import re
import sys
import unicodedata

from tests.lib import harness
from tests.oracle import functions
from tests.oracle.table import NAMES as FUNCTIONS

LEAST = 10000  # templates
CONSTANTS = "true false nil".split()
LETTERS = "abcdefghijklmnopqrstuvwxyz"
# the code of each letter that stands for itself after a backslash
ESCAPES = {"a": 7, "b": 8, "f": 12, "n": 10, "r": 13, "t": 9, "v": 11, "\\": 92}
DIGITS = {"x": 2, "u": 4, "U": 8}
NOT_UNDERSTOOD = "action not understood"
UNREADABLE = "unclosed or unreadable action"
# for actions of one byte or two: white space, signs that are tokens by themselves, and bytes before which any other is tried
WHITE = " \t\r\n"
SIGNS = {sign: sign for sign in ".$=,|()"}
GOES_ON = " .$1a-"
TOGETHER = 64  # accepted actions in one file
# the base of a number, what stands before its digits, and how it is written
BASES = [
    (16, "0[xX]", "0[xX](_?[0-9a-fA-F])+"),
    (2, "0[bB]", "0[bB](_?[01])+"),
    (8, "0[oO]?", "0[oO]?(_?[0-7])+"),
    (10, "", "(0|[1-9](_?[0-9])*)"),
]
NO_ACTIONS = [
    # a later command that begins with a constant, `nil` or dot
    *[".a | 1", ".a | .", ".a | nil", ".a | true", '.a | "x"', ".a | `x` 1", ".a | 'x'", "(.a | .)"],
    # commands without an operand
    *[". |", "|.", ".a||.b", "()", "(.a |)", "(| .a)"],
    # operands that touch
    *["print(1)", "(1)(2)", ".a(1)", ".a$", "$$", "..", '1"a"'],
    # chains after what has none
    *["len.x", "nil.a", "true.a", '"a".b', "'a'.b", "..a", "(.) .1", "(.).1"],
    # parentheses that do not match
    *["(.a", ".a)", "(.a))"],
    # words that are no operands
    *["print if", "print end", "(else)", "end .", "unknown", "print unknown", "if", "if .a := 1", "range $i, := ."],
    *["range $i, .a", "with $x, $y := .", "$ := 1", ".a, .b", ".a = 1"],
    # constants that are none
    *["08", "print 1.5", '"\\q"'],
]


def text(code):
    """A text of this one byte, as a constant."""
    return f'"\\x{code:02x}"'


def escaped(quote, letter):
    """What a backslash and a letter come to between these quotes, with 41 and 000041 after them where digits are asked for:
    the source between the quotes, and the code that it stands for or why it is refused."""
    if letter in DIGITS:
        return f"\\{letter}{'41'.zfill(DIGITS[letter])}", 0x41
    if letter in "01234567":
        # three octal digits, at most 377
        return f"\\{letter}01", int(f"{letter}01", 8) if letter in "0123" else NOT_UNDERSTOOD
    if letter == quote:
        return f"\\{letter}", ord(quote)
    if letter == "\n":
        return f"\\{letter}", UNREADABLE
    return f"\\{letter}", ESCAPES.get(letter, NOT_UNDERSTOOD)


def escapes():
    for code in range(128):
        letter = chr(code)
        for quote, action in (('"', "{{index %s 0}}"), ("'", "{{%s}}")):
            source, came = escaped(quote, letter)
            yield action % f"{quote}{source}{quote}", str(came) if isinstance(came, int) else None, came
    # digits that are too few, and none
    for letter, count in DIGITS.items():
        for have in range(count):
            yield '{{"\\%s%s"}}' % (letter, "4" * have), None, NOT_UNDERSTOOD
            yield '{{"\\%s%sg"}}' % (letter, "4" * have), None, NOT_UNDERSTOOD
    for have in ("0", "00", "08", "008", "400", "777"):
        yield '{{"\\%s"}}' % have, None, NOT_UNDERSTOOD
    # codes that are no characters
    for have in ("\\ud800", "\\udfff", "\\U00110000", "\\Uffffffff"):
        yield '{{"%s"}}' % have, None, NOT_UNDERSTOOD
        yield "{{'%s'}}" % have, None, NOT_UNDERSTOOD
    for have in ("", "ab", "\\n\\n"):
        yield "{{'%s'}}" % have, None, NOT_UNDERSTOOD


def html(code):
    table = {0: "\ufffd", 34: "&#34;", 38: "&amp;", 39: "&#39;", 60: "&lt;", 62: "&gt;"}
    return table[code].encode() if code in table else bytes([code])


def urlquery(code):
    letter = chr(code)
    if code < 128 and (letter.isalnum() or letter in "-_.~"):
        return bytes([code])
    return b"+" if letter == " " else b"%%%02X" % code


def quoted(code):
    names = {10: "n", 13: "r", 9: "t", 7: "a", 8: "b", 11: "v", 12: "f", 34: '"', 92: "\\"}
    if code in names:
        return f'"\\{names[code]}"'.encode()
    return b'"%c"' % code if 32 <= code < 127 else b'"\\x%02x"' % code


def printed(char):
    """The quote of one character."""
    if char == " " or unicodedata.category(char)[0] in "LMNPS":
        return f'"{char}"'
    return f'"\\u{ord(char):04x}"' if ord(char) < 0x10000 else f'"\\U{ord(char):08x}"'


def each_byte():
    for code in range(256):
        yield "{{html %s}}" % text(code), html(code), None
        yield "{{urlquery %s}}" % text(code), urlquery(code), None
        yield '{{printf "%%q" %s}}' % text(code), quoted(code), None
    # characters of more bytes, of all lengths and categories that are old in Unicode
    for char in "é\u00a0\u00ad\u0300\u0416\u200b\u2028\u20ac\u3000\ud7ff\ue000\ufeff\ufffd\U0001d11e\U000e0001\U0010ffff":
        yield '{{printf "%%q" "%s"}}' % char, printed(char).encode(), None


def near(name):
    """The words that differ from a name by one letter more or less."""
    for at in range(len(name) + 1):
        for letter in LETTERS + "_0":
            yield name[:at] + letter + name[at:]
    for at in range(len(name)):
        yield name[:at] + name[at + 1 :]


def names():
    """A word is taken for what it is; here each is refused, or a call with a wrong number of arguments, or a constant."""
    words = {word for name in FUNCTIONS + CONSTANTS for word in near(name)}
    for word in sorted(words):
        if not word or word[0].isdigit():
            continue
        known = word in FUNCTIONS or word in CONSTANTS
        yield "{{if false}}{{print %s}}{{end}}" % word, "" if known else None, None if known else NOT_UNDERSTOOD


def is_name(byte):
    """Whether the byte may stand in a name."""
    return byte >= 0x80 or chr(byte).isalnum() or chr(byte) == "_"


def single(byte):
    """The token that one byte is on its own."""
    if chr(byte) in WHITE:
        return "space"
    if 0x30 <= byte <= 0x39:
        return "number"
    return "word" if is_name(byte) else SIGNS.get(chr(byte))


def double(first, second):
    """The token that two bytes are together."""
    front, after = chr(first), chr(second)
    kind = single(first)
    if kind == "space":
        return "space" if after in WHITE else None
    if kind == "number":
        return "number" if is_name(second) or after == "." else None
    if front in "+-":
        return "number" if single(second) == "number" else None
    if kind == "word" or front in ".$":
        return {"word": "word", ".": "field", "$": "variable"}[kind] if is_name(second) else None
    return {'""': "string", "``": "string", "''": "character", ":=": ":="}.get(front + after)


def tokens(inside):
    """The tokens between the braces, one byte or two; none where the action is unreadable."""
    if len(inside) == 1:
        kind = single(inside[0])
        return [(kind, inside)] if kind else [] if inside == b"}" else None
    kind = double(*inside)
    if kind:
        return [(kind, inside)]
    first, second = chr(inside[0]), chr(inside[1])
    one, other = single(inside[0]), single(inside[1])
    if first == "-" and second in WHITE or first in WHITE and second == "-" or inside == b"}}":
        return []
    if one and second == "}":
        return [(one, inside[:1])]
    return [(one, inside[:1]), (other, inside[1:])] if one and other else None


def whole_number(source):
    """The number that this spells, or none."""
    for base, digits, form in BASES:
        if re.fullmatch(f"[+-]?{form}", source):
            value = int(re.sub(f"^([+-]?){digits}", r"\1", source).replace("_", ""), base)
            return value if -(2**63) <= value < 2**63 else None
    return None


def meaning(inside):
    """What comes of an action of one byte or two that is no variable with a name: its output, or why it is refused."""
    found = tokens(inside)
    if found is None:
        return None, UNREADABLE
    kinds = [(kind, spelling) for kind, spelling in found if kind != "space"]
    text_behind = b"}" if inside.endswith(b"}") else b""
    if len(kinds) != 1:
        return None, NOT_UNDERSTOOD
    kind, spelling = kinds[0]
    if kind == "number":
        value = whole_number(spelling.decode("latin-1"))
        return (None, NOT_UNDERSTOOD) if value is None else (str(value).encode() + text_behind, None)
    if kind in (".", "$") or kind == "field" and not spelling[1:].isdigit():
        return b"<no value>" + text_behind, None
    return (b"", None) if kind == "string" else (None, NOT_UNDERSTOOD)


def insides():
    """Each byte, each pair of bytes of which both are of few or the first begins a token that goes on."""
    yield from (bytes([byte]) for byte in range(256))
    few = {byte for byte in range(256) if byte < 0x80 and not chr(byte).isalnum() and byte >= 0x20}
    few |= {ord(it) for it in "\t\r\n\0\v\f\x1f017ae\x80\xff"}
    for first, second in itertools.product(range(256), repeat=2):
        if first in few and second in few or chr(first) in GOES_ON:
            yield bytes([first, second])


def together(cases):
    """These cases, each accepted action with many others in one file, since a refused one would refuse the file."""
    cases = list(cases)
    yield from (case for case in cases if case[2])
    accepted = [case for case in cases if not case[2]]
    for at in range(0, len(accepted), TOGETHER):
        some = accepted[at : at + TOGETHER]
        yield b"".join(it[0] + b"\n" for it in some), b"".join(it[1] + b"\n" for it in some), None


def short_actions():
    """Each of these as an action, variables declared before, and functions not run, since they lack arguments."""
    for inside in insides():
        source = b"{{" + inside + b"}}"
        if inside.decode("latin-1") in FUNCTIONS:
            yield b"{{if false}}" + source + b"{{end}}", b"", None
        elif tokens(inside) == [("variable", inside)]:
            yield b"{{" + inside + b" := 1}}" + source, b"1", None
        else:
            yield source, *meaning(inside)


def between_quotes():
    """Each byte alone between quotes of each kind."""
    for byte in range(256):
        inside = bytes([byte])
        for quote, refused, out in (
            (b'"', b'\n"\\', inside if byte < 0x80 else "\ufffd".encode()),
            (b"`", b"`", inside.replace(b"\r", b"")),
            (b"'", b"\n'\\", b"%d" % (byte if byte < 0x80 else 0xFFFD)),
        ):
            source = b"{{" + quote + inside + quote + b"}}"
            yield (source, None, UNREADABLE) if inside in refused else (source, out, None)


def numbers():
    """Each number of up to three of these bytes, and of four after a prefix, and ones beyond the ends."""
    spelled = {first + "".join(more) for first in "018" for n in range(3) for more in itertools.product("018_xboa.", repeat=n)}
    spelled |= {front + "".join(more) for front in ("0x", "0b", "0o", "0_") for more in itertools.product("01_g", repeat=2)}
    spelled |= {"0x1p4", "1i", "1\u00e9", "0_x1", "0x__1", "-0b", "0b2", "1e3", "+9223372036854775808", "-18446744073709551617"}
    spelled |= {"18446744073709551616", "340282366920938463463374607431768211457"}
    values = {source: whole_number(source) for source in sorted(spelled)}
    yield from (("{{%s}}" % source, None, NOT_UNDERSTOOD) for source, value in values.items() if value is None)
    known = [source for source, value in values.items() if value is not None]
    yield "".join("{{%s}}," % it for it in known), "".join(f"{values[it]}," for it in known), None


def refused_constants():
    """Escapes of bad digits, and characters of more than one part."""
    for have in ("\\08a", "\\12", "\\xg0", "\\x_1", "\\X41", "\\u12", "\\u+123", "\\U0000d800", "\\UFFFFFFFF", "a\\'", "\\\u00e9"):
        yield '{{"%s"}}' % have, None, NOT_UNDERSTOOD
    for have in ("\\na", "a\\n", "\\400", "\\xf"):
        yield "{{'%s'}}" % have, None, NOT_UNDERSTOOD


def refused_actions():
    """Actions that can be read, and are none of the language."""
    for inside in NO_ACTIONS:
        yield "{{%s}}" % inside, None, NOT_UNDERSTOOD


def check(case):
    """What the program says of a template, and what it should say, where they differ. With data, what is said is a fault."""
    source, out, refusal, *data = case
    out = out.encode() if isinstance(out, str) else out
    refused = (1, b"", f'tmpl: m:1: in "m": {refusal}\n') if data else (4, b"", f"tmpl: m:1: {refusal}\n")
    want = (*refused[:2], refused[2].encode()) if out is None else (0, out, b"")
    for name, content in zip((b"m", b"d"), (source, *data)):
        RUNNER.lay(name, content.encode() if isinstance(content, str) else content)
    got = RUNNER.run([b"--data", b"d", b"m"] if data else [b"m"])
    return None if got == want else f"FAILED {source!r}\n    wanted {want}\n    got {got}"


def start():
    global RUNNER
    RUNNER = harness.Runner()


def main():
    if not harness.is_built():
        return harness.closing(0, 1)
    cases = [*escapes(), *each_byte(), *names(), *functions.cases()]
    cases += [*together(short_actions()), *together(between_quotes()), *numbers(), *refused_constants(), *refused_actions()]
    wrong = [it for it in harness.in_processes(check, cases, start, 200) if it]
    print(*wrong[:20], sep="\n", end="\n" * bool(wrong))
    failed = len(wrong) + harness.too_few("templates were run", len(cases), LEAST)
    return harness.closing(len(cases) - len(wrong), failed)


if __name__ == "__main__":
    sys.exit(main())
