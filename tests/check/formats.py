"""Compares the machines of tmpl_formats with readers: Python's json and csv, dash, nginx's rules and nginx itself, PyYAML and ruamel, on texts made by random and spoiled by a few bytes. What a
machine accepts its reader reads, and reads as the same values; YAML is read by the rules of YAML 1.1 and of YAML 1.2, as the same values. What it refuses as JSON or a file of nginx the reader
refuses too. Patterns are compared with node's. No text with the prefix up to a mistake is accepted: each is tried with bytes after it. ROWS are worked out by hand from the grammars.

    python3 -m tests.check.formats SEED COUNT     so many texts of each format, of this seed"""
import csv
import io
import json
import random
import re
import resource
import subprocess
import sys
import tempfile

from tests.lib import harness, tools

try:
    import yaml
except ImportError:  # see tests/lib/tools.py
    yaml = None

COUNT, LEAST = 4000, 800  # texts of each format, and how many of them have to be accepted
SHELL, SERVER = 400, 100  # files that dash reads, and nginx itself
UTF8 = "a character in UTF-8"
STACK = 512 << 10  # bytes that the machines have
# the name of a format, a text, and where it ceases to be of it: None where it is of it
ROWS = [
    ("json", b"0", None), ("json", b" [1, 2.50, -0, 1e9, -3.1E+05] ", None), ("json", b'{"a":{},"b":[[]],"\\u00e9\\/":"\\n"}', None),
    ("json", b"[true,false,null]", None), ("json", b'"\\ud83d\\ude00"', None), ("json", "\"é\u2028\x7f\"".encode(), None), ("json", b"1e999", None),
    ("json", b"", 0), ("json", b"01", 1), ("json", b"+1", 0), ("json", b".5", 0), ("json", b"1.", 2), ("json", b"1.e5", 2), ("json", b"1e", 2),
    ("json", b"-", 1), ("json", b"--1", 1), ("json", b"[1,]", 3), ("json", b"[,1]", 1), ("json", b"[1 2]", 3), ("json", b"[1}", 2), ("json", b"{1:2}", 1),
    ("json", b'{"a":1,}', 7), ("json", b'{"a" 1}', 5), ("json", b'{"a":}', 5), ("json", b'{"a"}', 4), ("json", b"{]", 1), ("json", b"[1]]", 3),
    ("json", b'"a\nb"', 2), ("json", b'"\\x"', 2), ("json", b'"\\ud83d"', 7), ("json", b'"\\ude00"', 4), ("json", b'"\\ud83dx"', 7), ("json", b'"\\u12g4"', 5),
    ("json", b'"a', 2), ("json", b"tru", 3), ("json", b"trux", 3), ("json", b"True", 0), ("json", b"NaN", 0), ("json", b"1 2", 2), ("json", b"'a'", 0),
    ("json", b'"\xff"', 1), ("json", b'"\xed\xa0\x80"', 1), ("json", b"\xef\xbb\xbf1", 0), ("json", b"[" * 100000 + b"]" * 100000, None), ("json", b"[" * 5000, 5000),
    ("jsonl", b"", None), ("jsonl", b"1\n[2]\n", None), ("jsonl", b'{"a":1}\n\n \t\r\n"b"', None), ("jsonl", b"1\r\n2", None), ("jsonl", b"1 2\n", 2),
    ("jsonl", b"[1,\n2]", 3), ("jsonl", b'"a\n"', 2), ("jsonl", b"1\n[", 3), ("jsonl", b"1\n]", 2), ("jsonl", b"\n\n", None),
    ("env", b"", None), ("env", b"A=1\n", None), ("env", b"A=\n\n# it's $x\nb_2=a-B/1:c@d,e%f+g?=.\n", None), ("env", b"A='$x \"\n`\\'", None),
    ("env", b'A="a b\n\\$\\`\\"\\\\"\n', None), ("env", b'A=""', None), ("env", b"A", 1), ("env", b"1A=1", 0), ("env", b" A=1", 0), ("env", b"A =1", 1),
    ("env", b"A= 1", 2), ("env", b"A=a b", 3), ("env", b"A=$x", 2), ("env", b'A="$x"', 3), ("env", b'A="`x`"', 3), ("env", b'A="\\x"', 4), ("env", b"A='x", 4),
    ("env", b"A='x'y", 5), ("env", b"A=x'y'", 3), ("env", b"A=~", 2), ("env", b"A=x\r\n", 3), ("env", b"export A=1", 6), ("env", b"# a\\\n", 3), ("env", b"A='\0'", 3),
    ("env", b"A=x;y", 3), ("env", b"A=x #c", 3), ("env", b"A=\xc3\xa9", 2), ("env", "A='é'".encode(), None), ("env", b"A='\xff'", 3),
    ("csv:1", b"", None), ("csv:1", b"a\n", None), ("csv:1", b'""\n', None), ("csv:1", b"\n", 0), ("csv:1", b"a\n\n", 2), ("csv:1", b"a,b", 1), ("csv:2", b",", None),
    ("csv:2", b"a,b\r\nc,d", None), ("csv:2", b'"a\n,""","b c"\n', None), ("csv:2", b"a\n", 1), ("csv:2", b"a", 1), ("csv:2", b"a,b,c", 3), ("csv:2", b'a"b,c', 1),
    ("csv:2", b'"a"b,c', 3), ("csv:2", b'"a,b', 4), ("csv:2", b"a,b\rc,d", 4), ("csv:2", b"a,\0", 2), ("csv:3", b",,\n,,\n", None), ("csv:3", b"a,b\n,c", 3),
    ("nginx", b"", None), ("nginx", b"a;", None), ("nginx", b"# c", None), ("nginx", b"http { # c;\n server{listen 80 ;}\n}\n", None), ("nginx", b"a '\\'' \"$x{\";", None),
    ("nginx", b"if ($a = 'b') {}", None), ("nginx", b"a ${b}c\\;d}e #f\n;", None), ("nginx", b"a b#c;", None), ("nginx", b"a$;", None), ("nginx", b"a", 1),
    ("nginx", b";", 0), ("nginx", b"a;;", 2), ("nginx", b"{", 0), ("nginx", b"}", 0), ("nginx", b"a {", 3), ("nginx", b"a {}}", 4), ("nginx", b"a }", 2),
    ("nginx", b"a {b}", 5), ("nginx", b"a 'b'c;", 5), ("nginx", b"a 'b", 4), ("nginx", b"a # c", 5), ("nginx", b"a\\", 2), ("nginx", b"a \0;", 2), ("nginx", b"$", 1),
    ("nginx", b"a \xff;", 2), ("nginx", b"a '\n';", None), ("nginx", b"a {} b;", None), ("nginx", b"a{{", 2), ("nginx", b"a${{;", None),
    ("csv:0", b"", None), ("csv:0", b"a", 1), ("csv:4294967295", b"a,b\n", 3),
    ("yaml", b"", None), ("yaml", b"\n\n", None), ("yaml", b"a", None), ("yaml", b"a: 1", None), ("yaml", b"a: 1\nb:\n  c: true\n  d:\n", None),
    ("yaml", b"# c\n---\na: x # c\n--- # c\n- b\n", None), ("yaml", b"a:\n- b\n- c: d\n  e: f\ng:\n  - h\n", None), ("yaml", b"- - a\n  - b\n-\n  c: d\n-   e: f\n    g: h\n", None),
    ("yaml", b"a: |\n  x\n\n   # y\n\tz\nb: 1", 17), ("yaml", b"a: |\n  x\n\n   # y: |\nb: >-\n    z\nc: |+\n\nd: >\n", None), ("yaml", b"- |\n  a\n -b\n- c", 9),
    ("yaml", b"a: [1, {b: c, \"d\":'e'}, [], {}, f g, ]\n", None), ("yaml", b"{}", None), ("yaml", b"[[[", 3), ("yaml", b"[a\n]", 2), ("yaml", b"[a b]: c", 5), ("yaml", b"[a]b", 3),
    ("yaml", b"[a: b]", 3), ("yaml", b"{a}", 2), ("yaml", b"{a:b}", 4), ("yaml", b"[a}", 2), ("yaml", b"[,]", 1), ("yaml", b"[a,,b]", 3), ("yaml", b"[a, b", 5), ("yaml", b"{a: }", 4),
    ("yaml", b"a: \"b\\n\\x41\\u00e9\\U0001f600\"\n'c': 'd''e'\n", None), ("yaml", b'"\\ud800"', 6), ("yaml", b'"\\U00110000"', 10), ("yaml", b'"\\/"', 2), ("yaml", b'"a\nb"', 2),
    ("yaml", b"'a\nb'", 2), ("yaml", b'"a" b', 4), ("yaml", b'"a":b', 4), ("yaml", b'a: "b": c', 6), ("yaml", b"a: b: c", 5), ("yaml", b"a: - b", 4), ("yaml", b"a:b", None),
    ("yaml", b"a:b: c::d\n", None), ("yaml", b"no", 2), ("yaml", b"no: 1", 3), ("yaml", b"- y\n", 3), ("yaml", b"- Off # c", 6), ("yaml", b"nope", None), ("yaml", b"null", None),
    ("yaml", b"a: 0", None), ("yaml", b"a: -12", None), ("yaml", b"a: 00", 5), ("yaml", b"a: 1.5", 6), ("yaml", b"a: 1.2.3", None), ("yaml", b"a: 0x1f", 7), ("yaml", b"a: 1e3", 6), ("yaml", b"a: 12:30", 8),
    ("yaml", b"a: 2001-12-14", 13), ("yaml", b"a: 100m", None), ("yaml", b"a: +1", 5), ("yaml", b"a: .5", 4), ("yaml", b"a: .env", None), ("yaml", b"a: -x", None), ("yaml", b"--x: 1", None),
    ("yaml", b"a: ~", 3), ("yaml", b"a: &b c", 3), ("yaml", b"a: !b c", 3), ("yaml", b"*a", 0), ("yaml", b"? a", 0), ("yaml", b"%a", 0), ("yaml", b"a: %", 3), ("yaml", b"@a", 0),
    ("yaml", b"a: 1\n b: 2", 6), ("yaml", b" a: 1\nb: 2", 6), ("yaml", b"a:\n  b: 1\n c: 2", 11), ("yaml", b"- a\nb: 1", 4), ("yaml", b"a: 1\n- b", 6), ("yaml", b"a: b\n c", 6), ("yaml", b"a\nb", 2),
    ("yaml", b"a: 1\nb", 6), ("yaml", b"a:\n  b\nc: 1\n", None), ("yaml", b"a:\n- b\n - c", 8), ("yaml", b"a: |x\n", 4), ("yaml", b"|\n a", 0), ("yaml", b"a: |\n\tb", 5), ("yaml", b"a: |\n    \n  b", 9),
    ("yaml", b"a: |\n  b\n c", 10), ("yaml", b"a\t: b", 1), ("yaml", b"a:\tb", 2), ("yaml", b"\ta", 0), ("yaml", b"a: b\r\n", 4), ("yaml", b"a: b #c", None), ("yaml", b"a: b#c", None), ("yaml", b"a :b", 2),
    ("yaml", b"--- a", 4), ("yaml", b"---a", 3), ("yaml", b"...", 1), ("yaml", b"-\n---\n---", None), ("yaml", b"- a\n---\nb: c", None), ("yaml", b"  ---", 4), ("yaml", b"a: b, c", None), ("yaml", b"a: b]", None),
    ("yaml", "é: ü\n".encode(), None), ("yaml", "a: \x85".encode(), 4), ("yaml", "a: '\u2028'".encode(), 6), ("yaml", "\ufeffa".encode(), 2), ("yaml", "# \ufffe".encode(), 4), ("yaml", b"a: \x7f", 3),
    ("yaml", b"a: '\0'", 4), ("yaml", b"a: \xff", 3), ("yaml", b"- " * 50000 + b"a", None), ("yaml", b"[" * 50000 + b"]" * 50000, None),
    ("lines:a", b"", None), ("lines:a", b"a", None), ("lines:a", b"ba\nab\n", None), ("lines:a", b"a\nb\na", 2), ("lines:a", b"\n", 0), ("lines:a", b"a\n\n", 2),
    ("lines:", b"\n\nx", None), ("lines:^$", b"\n\n", None), ("lines:^$", b"\na", 1), ("lines:^a$", b"a\na", None), ("lines:^a$", b"a\r\n", 0), ("lines:^a|b$", b"ax\nxb\nxa", 6),
    ("lines:^(?:a|b)*$", b"abba\n\nabc", 6), ("lines:(^a)+b", b"ab\naab", 3), ("lines:(a|ab)(c|bcd)$", b"abcd\nac\nabd", 8), ("lines:^(a*)*b$", b"aaab\naaa", 5),
    ("lines:^a{2,3}$", b"aa\naaa\na", 7), ("lines:^a{2,3}$", b"aaaa", 0), ("lines:^a{2,}?$", b"aaaaa\na", 6), ("lines:^a{0}$", b"\na", 1), ("lines:^ab{2}$", b"abb\nab", 4),
    ("lines:^.$", "é\n\U0001f600".encode(), None), ("lines:^.$", "\u2028".encode(), 0), ("lines:^\\u{1F600}\\u00e9\\x41$", "\U0001f600\u00e9A".encode(), None),
    ("lines:^[a-c\\d_\\-]+$", b"a-b_9c\nd", 7), ("lines:^[^a-c]$", b"d\n]\na", 4), ("lines:^[^]$", b"a\n\n", 2), ("lines:[]", b"a", 0), ("lines:^[a-]$", b"-\nb", 2), ("lines:^[\\]\\b]$", b"]\n\b", None),
    ("lines:^\\w\\W\\s\\S\\D$", "_-\u00a0xy".encode(), None), ("lines:^\\S$", "\ufeff".encode(), 0), ("lines:^\\0\\t\\/\\.$", b"\0\t/.", None), ("lines:a", b"a\nb\xff", 3), ("lines:b", b"a\xff", 1), ("lines:b", b"a\n\xff", 0),
    ("lines:" + "(?:" * 50 + "a" + ")" * 50, b"a\nb", 2), ("lines:" + "(" * 51 + "a" + ")" * 51, b"", -1), ("lines:^(?:a?){500}a{500}$", b"a" * 500, None), ("lines:" + "a" * 6000, b"a" * 5999, 0),
    ("lines:" + "a|" * 4000 + "b", b"b\nc", 2), ("lines:" + "(?:(?:a*)*b|" * 49 + "c" + ")" * 49, b"aab\nc\nd", 6), ("lines:" + ("(?:" + "abcd" * 25) * 49 + ")*" * 49, b"ab\nabcd", None),
    ("lines:^" + "(?:a|b|c|d|e|f|g|h|(?:xyz){7}|" * 49 + ")*" * 49 + "$", b"abba\ni", 5), ("lines:a{30000}", b"", -1), ("lines:((a{99}){99}){99}", b"", -1),
    *((f"lines:{it}", b"", -1) for it in ("(", ")", "a)", "a**", "a+*", "*", "^*", "$?", "[b-a]", "[a", "[\\d-z]", "[a-\\w]", "\\1", "\\-", "\\a", "\\", "\\b", "\\p{L}", "\\cA", "(?=a)", "(?<n>a)",
       "(?", "{", "a{", "a{1", "a{,2}", "a{2,1}", "]", "}", "\\x4", "\\u12", "\\u{}", "\\u{110000}", "\\ud800", "\\00")),
]
BYTES = {
    "json": [b'"', b"\\", b"{", b"}", b"[", b"]", b",", b":", b"0", b"7", b"-", b".", b"e", b"u", b"d8", b"\\ud83d", b"\\udc00", b" ", b"\n", b"t", b"null", b"\xc3\xa9", b"\x80", b"\0"],
    "env": [b"'", b'"', b"\\", b"$", b"`", b"=", b"#", b"\n", b"\r", b" ", b"A", b"_", b"1", b"-", b"~", b"\xc3\xa9", b"\x80", b"\0", b";", b"?"],
    "csv": [b'"', b",", b"\n", b"\r", b"\r\n", b"a", b" ", b"\xc3\xa9", b"\x80", b"\0"],
}
BYTES["nginx"] = [b"'", b'"', b"\\", b"$", b"${", b"{", b"}", b";", b"#", b"\n", b" ", b"a", b")", b"\xc3\xa9", b"\x80", b"\0"]
BYTES["jsonl"] = BYTES["json"]
BYTES["yaml"] = [b" ", b"  ", b"\n", b"\n  ", b"- ", b"-", b": ", b":", b"a", b"no", b"0", b"1", b".", b"+", b"_", b"e", b"#", b" # ", b'"', b"'", b"\\", b"[", b"]", b"{", b"}", b", ", b"|\n", b">", b"---",
    b"\t", b"?", b"&", b"*", b"!", b"~", b"=", b"<<", b"%", b"@", b"`", "é".encode(), b"\xc2\x85", "\u2028".encode(), "\ufeff".encode(), b"\x7f", b"\0", b"\xff"]


# ---- texts


def a_string(drawn):
    parts = ["a", " ", "é", "\u2028", "\U0001f600", "\x7f", '\\"', "\\\\", "\\/", "\\n", "\\u00e9", "\\uD83D\\uDe00", "\\ud7ff", "\\ue000", "'"]
    return '"' + "".join(drawn.choices(parts, k=drawn.randrange(4))) + '"'


def a_value(drawn, depth=0):
    kind = drawn.randrange(4 if depth > 3 else 6)
    space = drawn.choice(["", "", "", " ", "\t", "\r"])
    if kind == 0:
        return space + drawn.choice(["true", "false", "null"])
    if kind == 1:
        return drawn.choice(["0", "-0", "7", "10", "-12"]) + drawn.choice(["", "", ".5", ".00"]) + drawn.choice(["", "", "e1", "E+02", "e-3"]) + space
    if kind in (2, 3):
        return a_string(drawn) + space
    items = [a_value(drawn, depth + 1) for _ in range(drawn.randrange(4))]
    if kind == 4:
        return "[" + space + ("," + space).join(items) + "]"
    return space + "{" + space + ",".join(a_string(drawn) + space + ":" + it for it in items) + "}"


def an_assignment(drawn):
    name = drawn.choice(["A", "b", "_c", "D_1", "eE9"])
    kind = drawn.randrange(5)
    if kind == 0:
        return drawn.choice(["", "#" + "".join(drawn.choices("a 'é$\"", k=3))])
    if kind == 1:
        return name + "='" + "".join(drawn.choices(["a", " ", "\n", '"', "\\", "$x", "`", "é", "#"], k=drawn.randrange(5))) + "'"
    if kind == 2:
        return name + '="' + "".join(drawn.choices(["a", " ", "\n", "'", "\\\\", "\\$", "\\`", '\\"', "é", "#", "*"], k=drawn.randrange(5))) + '"'
    return name + "=" + "".join(drawn.choices("aZ09%+,./:=@?_-", k=drawn.randrange(6)))


def a_field(drawn):
    if drawn.randrange(2):
        return "".join(drawn.choices("aé '\t;", k=drawn.randrange(4)))
    return '"' + "".join(drawn.choices(["a", ",", '""', "\n", "\r", "\r\n", "é"], k=drawn.randrange(4))) + '"'


def a_word(drawn):
    kind = drawn.randrange(4)
    if kind == 0:
        return "'" + "".join(drawn.choices(["a", " ", "\n", '"', "\\'", "\\\\", "$x", ";", "{", "é", "#"], k=drawn.randrange(4))) + "'" + drawn.choice(["", "", ")"])
    if kind == 1:
        return '"' + "".join(drawn.choices(["a", " ", "'", '\\"', "\\n", "${", "}", ";", "é"], k=drawn.randrange(4))) + '"'
    return drawn.choice(["a", "(", "/", "é", "\\ ", "$x", "${y}", ")"]) + "".join(drawn.choices(["b", "'", "}", "#", "\\;", "$", "${z}", "é", ")"], k=drawn.randrange(3)))


def a_directive(drawn, depth=0):
    gap = lambda: drawn.choice([" ", " ", "\n", "\t", "\r\n", " # c;{\n"])
    words = gap().join(a_word(drawn) for _ in range(drawn.randrange(1, 4))) + drawn.choice(["", "", gap()])
    if depth > 2 or drawn.randrange(3):
        return words + ";"
    return words + "{" + "".join(drawn.choice(["", " ", "\n"]) + a_directive(drawn, depth + 1) for _ in range(drawn.randrange(3))) + drawn.choice(["", "\n"]) + "}"


PLAIN = ["a", "b c", "x y z", "no", "y", "on", "Yes", "True", "null", "nope", "0", "7", "-12", "010", "1.5", "1.2.3", "10.0.0.1", "1e3", "0x1f", "12:30", "2001-12-14", "100m", "+1", ".5", ".env", ".inf",
    "-x", "--flag", "./x", "a:b", "a::b", "a#b", "$x", "(a)", "/b", "_", "é", "^a$", "a, b", "1_000", "-.5", "0o17", "+x", "1 2", "e3", "=", "<<", "1:2:3", "0b1", "a?"]


def a_scalar(drawn):
    kind = drawn.randrange(6)
    if kind == 0:
        parts = ["a", " ", "#", ": ", "é", "\\n", '\\"', "\\\\", "\\x41", "\\u00e9", "\\U0001f600", "\\0", "\\e", "'", "\t", ", ", "\\ud7ff"]
        return '"' + "".join(drawn.choices(parts, k=drawn.randrange(4))) + '"'
    if kind == 1:
        return "'" + "".join(drawn.choices(["a", " ", "#", ": ", "é", "''", '"', "\\", "\t", "]"], k=drawn.randrange(4))) + "'"
    return drawn.choice(PLAIN) + drawn.choice(["", "", "", " d", "z"])


def a_flow(drawn, depth=0):
    kind, space = drawn.randrange(4), drawn.choice(["", "", " "])
    if depth > 2 or kind < 2:
        return a_scalar(drawn)
    items = [a_flow(drawn, depth + 1) for _ in range(drawn.randrange(4))]
    if kind == 2:
        return "[" + space + ", ".join(items) + space + drawn.choice(["", "", ","]) + "]"
    return "{" + space + ", ".join(drawn.choice([a_scalar(drawn) + ": ", '"a":']) + it for it in items) + space + "}"


def a_block(drawn, indent):
    lines = [drawn.choice(["", " ", " " * indent + drawn.choice(["a", "# b", " c", "d: e", "\tf", "é", "- g"])]) for _ in range(drawn.randrange(4))]
    return drawn.choice("|>") + drawn.choice(["", "", "-", "+"]) + "\n" + "".join(it + "\n" for it in lines)


def a_node(drawn, indent, depth=0):
    """What stands after an item or a key at a column: on its line, and on the lines after it, which it ends."""
    kind = drawn.randrange(8 if depth < 3 else 5)
    end = drawn.choice(["\n", "\n", "\n", " # c\n", "\n\n", "\n  # c\n"])
    if kind == 0:
        return end
    if kind == 1:
        return " " + a_block(drawn, indent + drawn.randrange(1, 4))
    if kind == 2:
        return " " + a_flow(drawn) + end
    if kind < 5:
        return drawn.choice([" ", " ", "  "]) + a_scalar(drawn) + end
    if kind == 5:
        return end + entries(drawn, indent + drawn.choice([1, 2, 2, 4]), depth + 1)
    return end + items(drawn, indent + drawn.choice([0, 1, 2, 2]), depth + 1)


def entries(drawn, indent, depth, is_begun=False):
    """Keys of a map at a column, of which the first may be begun on a line."""
    them = ["" if is_begun and not i else " " * indent for i in range(drawn.randrange(1, 4))]
    return "".join(it + drawn.choice([a_scalar(drawn), "k"]) + ":" + a_node(drawn, indent, depth) for it in them)


def items(drawn, indent, depth):
    told = ""
    for _ in range(drawn.randrange(1, 4)):
        gap = drawn.choice([1, 1, 1, 3])
        told += " " * indent + "-" + (" " * gap + entries(drawn, indent + 1 + gap, depth + 1, True) if depth < 3 and not drawn.randrange(3) else a_node(drawn, indent, depth))
    return told


def a_document(drawn):
    kind = drawn.randrange(5)
    if kind == 0:
        return drawn.choice([a_flow(drawn), a_scalar(drawn), "", "# c"]) + "\n"
    indent = drawn.choice([0, 0, 0, 1])
    return entries(drawn, indent, 0) if kind < 4 else items(drawn, indent, 0)


def made(name, drawn):
    """A text that is mostly of the format."""
    end = drawn.choice(["", "\n"])
    if name == "json":
        return a_value(drawn)
    if name == "jsonl":
        return "\n".join(drawn.choice([a_value(drawn), a_value(drawn), "", " "]) for _ in range(drawn.randrange(4))) + end
    if name == "env":
        return "\n".join(an_assignment(drawn) for _ in range(drawn.randrange(1, 4))) + end
    if name == "nginx":
        return "".join(drawn.choice(["", " ", "# c }\n"]) + a_directive(drawn) + drawn.choice(["", "\n"]) for _ in range(drawn.randrange(4))) + drawn.choice(["", "", "# end"])
    if name == "yaml":
        return drawn.choice(["", "", "---\n", "# c\n"]) + "---\n".join(a_document(drawn) for _ in range(drawn.choice([1, 1, 1, 2])))
    columns = int(name[4:])
    lines = [",".join(a_field(drawn) for _ in range(columns)) for _ in range(drawn.randrange(4))]
    return drawn.choice(["\n", "\r\n"]).join(lines) + end


def spoiled(text, alphabet, drawn):
    """The text with a few bytes taken away, put in or exchanged."""
    for _ in range(drawn.choice([0, 1, 1, 2, 3])):
        at, length = drawn.randrange(len(text) + 1), drawn.randrange(3)
        text = text[:at] + drawn.choice([b"", drawn.choice(alphabet)]) + text[at + length :]
    return text


def texts(name, seed, count):
    drawn = random.Random(f"{name} {seed}")
    alphabet = BYTES[name.partition(":")[0]]
    return [spoiled(made(name, drawn).encode(), alphabet, drawn) for _ in range(count)]


ATOMS = ["a", "b", "c", "é", "\U0001f600", ".", "\\d", "\\D", "\\w", "\\W", "\\s", "\\S", "[ab]", "[^a]", "[a-c\\d]", "[^\\s-]", "[\\]\\-b]", "[]", "[^]", "[-a]", "[é-\U0001f600]",
         "\\x61", "\\u0062", "\\u{63}", "\\t", "\\.", "\\/", "-", " "]
TIMES = ["", "", "", "*", "+", "?", "{2}", "{0,1}", "{1,}", "{0}", "{1,3}?", "*?", "+?", "??"]
UNREAD = re.compile(r"\\[1-9bBpPcku]|\(\?[=!<]|\\u")  # what may be in a pattern that is valid and not read


def a_pattern(drawn, depth=0):
    def a_term():
        kind = drawn.randrange(8)
        if kind == 0:
            return drawn.choice("^$")
        atom = drawn.choice(["(", "(?:"]) + a_pattern(drawn, depth + 1) + ")" if kind < 3 and depth < 3 else drawn.choice(ATOMS)
        return atom + drawn.choice(TIMES)
    return "|".join("".join(a_term() for _ in range(drawn.randrange(4))) for _ in range(drawn.choice([1, 1, 2, 3])))


def a_line(drawn):
    return "".join(drawn.choices(["a", "a", "b", "c", "é", "1", "-", "\t", " ", ".", "]", "\U0001f600", "\u2028"], k=drawn.randrange(7)))


# ---- readers: each raises ValueError where it reads no such text


def refused(what):
    raise ValueError(what)


def read_json(text):
    """As JSON, without the constants that Python adds, and without surrogates that stand alone."""
    read = json.loads(text.decode(), parse_constant=refused)
    json.dumps(read, ensure_ascii=False).encode()


def read_lines(text):
    for line in text.decode().split("\n"):
        if line.strip(" \t\r"):
            read_json(line.encode())


def read_csv(columns, text):
    shown = text.decode()
    if "\0" in shown:
        raise ValueError("a NUL")
    try:
        rows = list(csv.reader(io.StringIO(shown, newline=""), strict=True))
    except csv.Error as error:
        raise ValueError(error) from error
    if any(len(it) != columns for it in rows):
        raise ValueError("another number of fields")


def assigned(text):
    """The variables of an environment file, by its rules."""
    found = {}
    for name, single, double, bare in re.findall(r"""(?:#[^\n]*|([A-Za-z_]\w*)=(?:'([^']*)'|"((?:[^"\\]|\\.)*)"|([^\n]*))|)(?:\n|\Z)""", text.decode(), re.ASCII | re.DOTALL):
        if name:
            found[name] = single or re.sub(r"\\(.)", r"\1", double) or bare
    return found


def wrong_in_shell(folder, text):
    """What is wrong with how dash reads a file that was accepted."""
    path = f"{folder}/env"
    with open(path, "wb") as it:
        it.write(text)
    found = assigned(text)
    script = ". " + path + "".join(f'; printf "%s\\0" "${it}"' for it in found)
    ran = subprocess.run(["dash", "-uc", script], stdout=subprocess.PIPE, stderr=subprocess.PIPE, env={}, cwd=folder)
    wanted = b"".join(it.encode() + b"\0" for it in found.values())
    return [] if (ran.returncode, ran.stdout, ran.stderr) == (0, wanted, b"") else [f"    dash reads {ran}", f"    for {wanted}"]


def read_nginx(text):
    """As nginx's ngx_conf_read_token and ngx_conf_parse read words and blocks, but for NUL, and with UTF-8 alone."""
    if b"\0" in text:
        raise ValueError("a NUL")
    text.decode()
    depth = args = 0
    is_last_space, is_escaped, needs_space, is_comment, is_variable, quote = True, False, False, False, False, None
    for byte in map(chr, text):
        is_comment = is_comment and byte != "\n"
        if is_comment:
            continue
        if is_escaped:
            is_escaped = False
            continue
        ends_word = False
        if needs_space:
            if byte in " \t\r\n":
                is_last_space, needs_space = True, False
                continue
            if byte not in ";{)":
                raise ValueError("a word right after a quote")
            is_last_space, needs_space, ends_word = True, False, byte in ";{"
        if is_last_space and not ends_word:
            if byte in " \t\r\n":
                continue
            if byte in ";{":
                if not args:
                    raise ValueError("no word")
                ends_word = True
            elif byte == "}":
                if args or not depth:
                    raise ValueError("a brace")
                depth -= 1
                continue
            elif byte == "#":
                is_comment = True
                continue
            else:
                is_last_space, is_escaped, is_variable = False, byte == "\\", byte == "$"
                quote = byte if byte in "'\"" else None
                continue
        elif not ends_word:
            if byte == "{" and is_variable:
                continue
            is_variable = False
            if byte in "\\$":
                is_escaped, is_variable = byte == "\\", byte == "$"
                continue
            if quote:
                if byte == quote:
                    quote, needs_space, args, is_last_space = None, True, args + 1, False
                continue
            if byte not in " \t\r\n;{":
                continue
            is_last_space, args, ends_word = True, args + 1, byte in ";{"
        if ends_word:
            args, is_last_space, depth = 0, True, depth + (byte == "{")
    if args or not is_last_space or depth or needs_space:
        raise ValueError("an early end")


def wrong_in_nginx(folder, text):
    """What is wrong with how nginx itself reads directives without blocks that were accepted: it takes any words as types of files."""
    with open(f"{folder}/nginx.conf", "wb") as it:
        it.write(b"error_log stderr emerg; pid %s/pid; events {} http { types {\n%s\n} }" % (folder.encode(), text))
    ran = subprocess.run(["nginx", "-t", "-q", "-p", folder, "-c", f"{folder}/nginx.conf"], stdout=subprocess.PIPE, stderr=subprocess.STDOUT)
    return [f"    nginx says {ran.stdout}"] if ran.returncode else []


class Newer:
    """What the core schema of YAML 1.2 takes a plain scalar for."""

    RULES = (
        ("null", r"~|null|Null|NULL|", lambda it: None),
        ("bool", r"true|True|TRUE|false|False|FALSE", lambda it: it.lower() == "true"),
        ("int", r"[-+]?[0-9]+", int),
        ("int", r"0o[0-7]+", lambda it: int(it[2:], 8)),
        ("int", r"0x[0-9a-fA-F]+", lambda it: int(it[2:], 16)),
        ("float", r"[-+]?(\.[0-9]+|[0-9]+(\.[0-9]*)?)([eE][-+]?[0-9]+)?", float),
        ("float", r"[-+]?\.(inf|Inf|INF)|\.(nan|NaN|NAN)", str.lower),
    )

    @classmethod
    def value(cls, text):
        for tag, rule, read in cls.RULES:
            if re.fullmatch(rule, text):
                return tag, read(text)
        return "str", text


def value_of(node, plain):
    """The value of a node, with what a function takes plain scalars for."""
    if isinstance(node, yaml.ScalarNode):
        return plain(node) if node.style is None else ("str", node.value)
    if isinstance(node, yaml.SequenceNode):
        return "seq", [value_of(it, plain) for it in node.value]
    return "map", [(value_of(key, plain), value_of(it, plain)) for key, it in node.value]


def older(loader, node):
    """What YAML 1.1 takes a plain scalar for, with the truth values that PyYAML leaves out."""
    if node.value in ("y", "Y", "n", "N"):
        return "bool", node.value in "yY"
    tag = loader.resolve(yaml.ScalarNode, node.value, (True, False)).rpartition(":")[2]
    if tag in ("value", "merge", "timestamp"):
        return tag, node.value
    return tag, loader.construct_object(yaml.ScalarNode("tag:yaml.org,2002:" + tag, node.value))


def read_yaml(text):
    """As YAML 1.1 and YAML 1.2, and as the same values."""
    shown = text.decode()
    try:
        loader = yaml.SafeLoader(shown)
        while loader.check_node():
            node = loader.get_node()
            values = value_of(node, lambda it: older(loader, it)), value_of(node, lambda it: Newer.value(it.value))
            if repr(values[0]) != repr(values[1]):
                raise ValueError(f"two values: {values}")
    except yaml.YAMLError as error:
        raise ValueError(error) from error


def tree_of(node):
    """The tags and texts of a node, PyYAML's or ruamel's."""
    if not isinstance(node.value, list):
        return node.tag, node.value
    return node.tag, [tuple(map(tree_of, it)) if isinstance(it, tuple) else tree_of(it) for it in node.value]


def wrong_in_ruamel(text):
    """What is wrong with how ruamel reads a text that was accepted: by YAML 1.2, as PyYAML does by YAML 1.1."""
    import ruamel.yaml

    try:
        composer = ruamel.yaml.YAML(typ="safe", pure=True).get_constructor_parser(text.decode())[0].composer
        newer = []
        while composer.check_node():
            newer.append(tree_of(composer.get_node()))
        older = list(map(tree_of, yaml.compose_all(text.decode(), yaml.SafeLoader)))
    except (ruamel.yaml.YAMLError, yaml.YAMLError) as error:
        return [f"    {error}"]
    return [] if newer == older else [f"    ruamel reads {newer}", f"    and PyYAML {older}"]


READERS = {"nginx": read_nginx, "json": read_json, "jsonl": read_lines, "yaml": read_yaml}
EXACT = ("json", "jsonl", "nginx")  # what the machine refuses the reader refuses too


def reads(name, text):
    reader = READERS.get(name) or (lambda it: read_csv(int(name[4:]), it))
    try:
        reader(text)
        return True
    except (ValueError, RecursionError):
        return False


# ---- the machine


def asked(folder, cases):
    """Of each text of a format: none where it is of it, else the place of the mistake and what is wanted there."""
    path = f"{folder}/texts"
    with open(path, "wb") as it:
        it.write(b"%d\n" % len(cases))
        for name, text in cases:
            it.write(b"%d\n%s%d\n%s" % (len(name.encode()), name.encode(), len(text), text))
    stack = lambda: resource.setrlimit(resource.RLIMIT_STACK, (STACK, STACK))
    ran = subprocess.run([harness.PROBE, "formats", path], stdout=subprocess.PIPE, check=True, preexec_fn=stack)
    lines = ran.stdout.decode().split("\n")[:-1]
    if len(lines) != len(cases):
        raise ValueError(f"{len(lines)} lines for {len(cases)} texts")
    told = [None if it == "-" else it.split(" ", 1) for it in lines]
    return [it and (int(it[0]), it[1]) for it in told]


def wrong_of(name, text, mistake):
    """What is wrong with a verdict."""
    if mistake and not 0 <= mistake[0] <= len(text):
        return [f"    the place {mistake[0]} is not in the text"]
    if name == "env" or name == "yaml" and yaml is None or mistake and name not in EXACT:
        return []
    if mistake is None and not reads(name, text):
        return ["    its reader refuses it"]
    return ["    its reader reads it"] if mistake and reads(name, text) else []


def judged(folder, name, seed, count):
    """Of texts of a format: their names, how many each counts for, and what is wrong."""
    them = texts(name, seed, count)
    told = asked(folder, [(name, it) for it in them])
    for text, mistake in zip(them, told):
        yield f"{name} of {text!r}", int(mistake is None), wrong_of(name, text, mistake)
    drawn = random.Random(seed)
    again = [(text[: at + 1] + drawn.choice(them), at) for text, (at, said) in ((a, b) for a, b in zip(them, told) if b) if at < len(text) and said != UTF8]
    for (text, at), mistake in zip(again, asked(folder, [(name, it) for it, _ in again])):
        is_same = mistake and (mistake[0] == at or mistake[1] == UTF8)
        yield f"{name} of {text!r}", 0, [] if is_same else [f"    the mistake at {at} is gone: {mistake}"]
    if name == "env":
        for text in [it for it, mistake in zip(them, told) if mistake is None][:SHELL]:
            yield f"{name} of {text!r}", 0, wrong_in_shell(folder, text)
    if name == "yaml" and yaml and not tools.lack("ruamel", "what it reads of texts that are accepted"):
        for text in [it for it, mistake in zip(them, told) if mistake is None]:
            yield f"{name} of {text!r}", 0, wrong_in_ruamel(text)
    if name == "nginx" and not tools.lack("nginx", "what it reads of texts that are accepted"):
        simple = [it for it, mistake in zip(them, told) if mistake is None and it.strip() and not re.search(rb"[{}]|include", it)]
        for text in simple[:SERVER]:
            yield f"{name} of {text!r}", 0, wrong_in_nginx(folder, text)


SEARCH = """
const cases = JSON.parse(require("fs").readFileSync(0));
const found = ([pattern, lines]) => { let it; try { it = new RegExp(pattern, "u"); } catch (e) { return null; } return lines.map((line) => it.test(line)); };
console.log(JSON.stringify(cases.map(found)));"""


def searched(folder, seed, count):
    """Of random patterns and lines: whether node finds a match in the same lines, and has each pattern that is read. A few patterns are spoiled."""
    drawn = random.Random(f"patterns {seed}")
    spoils = ["(", ")", "[", "]", "{", "}", "*", "?", "|", "\\", "^", "-", "1", "a", ","]
    patterns = [a_pattern(drawn) for _ in range(count)]
    patterns += [spoiled(a_pattern(drawn).encode(), [it.encode() for it in spoils], drawn).decode(errors="ignore") for _ in range(count)]
    cases = [(it, [a_line(drawn) for _ in range(4)]) for it in patterns]
    ran = subprocess.run(["node", "-e", SEARCH], input=json.dumps(cases).encode(), stdout=subprocess.PIPE, check=True)
    told = iter(asked(folder, [(f"lines:{pattern}", line.encode() + b"\n") for pattern, lines in cases for line in lines]))
    for (pattern, lines), wanted in zip(cases, json.loads(ran.stdout)):
        these = [next(told) for _ in lines]
        if these[0] and these[0][0] == -1:
            is_right = wanted is None or UNREAD.search(pattern)
        else:
            is_right = wanted is not None and [it is None for it in these] == wanted
        yield f"lines:{pattern!r} over {lines}", int(is_right and wanted is not None), [] if is_right else [f"    node finds {wanted}, and not {these}"]


def main(seed="1", count=COUNT):
    if not harness.is_built(harness.PROBE):
        return harness.closing(0, 1)
    results, few = [], 0
    with tempfile.TemporaryDirectory() as folder:
        told = asked(folder, [it[:2] for it in ROWS])
        for (name, text, at), mistake in zip(ROWS, told):
            is_right = (mistake and mistake[0]) == at
            results.append((f"{name} of {text[:60]!r}", 0, [] if is_right else [f"    a mistake at {at} is wanted: {mistake}"]))
        tools.lack("yaml", "what it reads of texts that are accepted")
        for name in ("json", "jsonl", "env", "nginx", "yaml", "csv:1", "csv:2", "csv:3"):
            these = list(judged(folder, name, seed, int(count)))
            few += harness.too_few(f"texts of {name} were accepted", sum(it[1] for it in these), LEAST * int(count) // COUNT)
            results += these
        if not tools.lack("node", "whether the same patterns have matches"):
            these = list(searched(folder, seed, int(count)))
            few += harness.too_few("patterns were read", sum(it[1] for it in these), int(count))
            results += these
    passed, failed, _ = harness.tally(results)
    return harness.closing(passed, failed + few)


if __name__ == "__main__":
    sys.exit(main(*sys.argv[1:]))
