"""Quotes hostile texts by the templates of examples/quotes, and has each quote read by a reader of its format. These are a shell, sqlite3,
Python's csv, json and html.parser, and tomllib, PyYAML and nginx where they are there; for nginx and systemd also by their rules, written
below. What is read must be the text again, to the byte. The texts are hostile: quotes, newlines, each byte, random ones, ill-formed ones
where the format takes any bytes, and one of 600 kB, in a time that grows as its length. What has no quote must be refused with its reason.
TMPL=PATH names another build."""
import csv
import html.parser
import io
import json
import os
import random
import re
import resource
import socket
import sqlite3
import subprocess
import sys
import tempfile
import time

from tests.lib import harness, tools

try:
    import tomllib
except ImportError:
    tomllib = None
try:
    import yaml
except ImportError:
    yaml = None

FOLDER = f"{harness.TOP}/examples/quotes"
FILES = [b"quotes.tmpl", b"data.tmpl", b"texts.tmpl"]
LEAST = 2000  # texts that were quoted, where some readers are not there
LONG = 600000  # bytes
SLOWER = 2.5  # times as slow a byte of a long text may be as of one an eighth as long
PARTS = ["'", '"', "\\", "`", "$", "%", "\n", "\r\n", "\t", " ", "é", "→", "\U0001f600", "\u2028", "<b>", "&amp;", "//", "{{", "}}"]
PARTS += ["${x}", "%s", "\\n", "a", "Z", "0", ",", ";", "#", "--", ":", "|", "=", "!", "\x7f", "\x85", "\ufeff", "\ufffe"]


def texts():
    """Texts of UTF-8 without a NUL, and with one."""
    drawn = random.Random(1)
    yield from ["", *PARTS, *(it * 2 for it in PARTS), "".join(map(chr, range(1, 256))), "true", "null", "1e3", "~", " a ", "-n", "*.x"]
    for length in [*range(1, 12)] * 3 + [200]:
        yield "".join(drawn.choices(PARTS, k=length))
    yield from ["\0", "a\0b", "\0\0'"]


def ill_formed():
    drawn = random.Random(2)
    yield from [b"\xff", b"a\x80'", b"\xc3", b"\xed\xa0\x80\"", bytes(range(1, 256))]
    for length in range(1, 40):
        yield bytes(drawn.choices(range(1, 256), k=length))


# ---- readers: the bytes that a quote stands for


def by_shell(quoted):
    ran = subprocess.run(["sh"], input=b"printf %s " + quoted, stdout=subprocess.PIPE, check=True)
    return ran.stdout


def by_assignment(quoted):
    return subprocess.run(["sh"], input=b"x=" + quoted + b'\nprintf %s "$x"', stdout=subprocess.PIPE, check=True).stdout


def by_sqlite(quoted):
    (told,) = sqlite3.connect(":memory:").execute(f"SELECT {quoted.decode()}").fetchone()
    return told.encode()


def by_csv(quoted):
    ((_, told, _),) = csv.reader(io.StringIO(f"1,{quoted.decode('latin-1')},2\r\n", newline=""))
    return told.encode("latin-1")


def by_json(quoted):
    return json.loads(quoted).encode()


def by_toml(quoted):
    return tomllib.loads(f"x = {quoted.decode()}\n")["x"].encode()


def by_yaml(quoted):
    """As PyYAML reads it; the long ones by its quicker reader, where it has that."""
    quick = len(quoted) > LONG // 10 and hasattr(yaml, "CSafeLoader")
    return yaml.load(f"x: {quoted.decode()}\n", yaml.CSafeLoader if quick else yaml.SafeLoader)["x"].encode()


def by_html(quoted):
    held = []
    parser = html.parser.HTMLParser()
    parser.handle_starttag = lambda _, attributes: held.extend(attributes)
    parser.feed(f"<a b={quoted.decode()}>")
    return held[0][1].encode()


def unquoted(quoted, escape, told):
    """What is between double quotes, each escape as `told` has it."""
    if not re.fullmatch(rb'"(?:[^"\\]|\\.)*"', quoted, re.DOTALL):
        raise ValueError("no quoted word")
    return re.sub(escape, told, quoted[1:-1], flags=re.DOTALL)


def by_nginx(quoted):
    """As nginx takes a parameter: a backslash escapes quotes and itself, and makes t, r and n white space. A $ is a variable."""
    letters = {b"t": b"\t", b"r": b"\r", b"n": b"\n"}
    if b"$" in quoted:
        raise ValueError("a variable")
    return unquoted(quoted, rb"\\(.)", lambda it: letters.get(it[1], it[1] if it[1] in b"\"'\\" else it[0]))


def by_systemd(quoted):
    """As systemd takes a word of Environment=: escapes as in C, and %% for a percent sign."""
    told = {b"\\\\": b"\\", b'\\"': b'"', b"%%": b"%"}
    if re.search(rb"[\n%]", quoted.replace(b"%%", b"")):
        raise ValueError("a line or a specifier")
    return unquoted(quoted, rb"%%|\\x([0-9a-f]{2})|\\.", lambda it: bytes.fromhex(it[1].decode()) if it[1] else told[it[0]])


def by_command(quoted):
    """As systemd takes a word of ExecStart=, where $$ is a dollar sign."""
    if b"$" in quoted.replace(b"$$", b""):
        raise ValueError("a variable")
    return by_systemd(quoted.replace(b"$$", b"$"))


# the reader of each quote, whether the format takes any bytes, and what it says of a NUL, if it has none
QUOTES = {
    "sh": (by_shell, True, "stop: a shell has no word with a NUL"),
    "env": (by_assignment, True, "stop: an environment has no NUL"),
    "sql": (by_sqlite, False, "stop: SQL has no string with a NUL"),
    "csv": (by_csv if sys.version_info >= (3, 11) else None, True, None),
    "json": (by_json, False, None),
    "to json": (by_json, False, None),
    "toml": (by_toml if tomllib else None, False, None),
    "yaml": (by_yaml if yaml else None, False, None),
    "to yaml": (by_yaml if yaml else None, False, None),
    "nginx": (by_nginx, True, "stop: nginx has no parameter with a NUL"),
    "systemd": (by_systemd, True, "stop: systemd has no word with a NUL"),
    "systemd command": (by_command, True, "stop: systemd has no word with a NUL"),
    "attribute": (by_html, False, None),
}
# what each other template makes of a text, and what is put before the text
OTHERS = {
    "upper": (lambda it: it.upper(), ""),
    "lower": (lambda it: it.lower(), ""),
    "trim": (lambda it: it.strip(b" \t\r\n"), ""),
    "repeat": (lambda it: it * 12, "12:"),
    "indent": (lambda it: re.sub(rb"(?m)^(?=[^\n])", b"    ", it), "4:"),
    "replace": (lambda it: it.replace("é".encode(), "<é>".encode()), "/é/<é>/"),
    "default": (lambda it: it or b"\"no'", "|\"no'|"),
    "in turn": (lambda it: it.strip(b" \t\r\n").upper().replace(b"A", b"<Aa>").replace(b"\n", b"\r\n"), "|trim|upper|replace|A|<Aa>|replace|\n|\r\n||"),
}
# a number or texts that stand before the text, the text, and what is made of both
FORMS = [
    *[("repeat", "0:ab", b""), ("repeat", "3:", b""), ("repeat", "2:1:", b"1:1:"), ("repeat", "9999:a", b"a" * 9999)],
    *[("indent", "0:a\nb", b"a\nb"), ("indent", "2:\n\na:b\n", b"\n\n  a:b\n"), ("indent", "12:a", b" " * 12 + b"a")],
    *[("replace", "//x/a/b", b"a/b"), ("replace", "/a//banana/", b"bnn/"), ("replace", "|aa|a|aaaaa", b"aaa")],
    *[("replace", "/ab/x/aab", b"ax"), ("replace", b"/\x80/<>/a\x80\xff", b"a<>\xff"), ("replace", b"/\xff\xa9/e/\xff\xff\xa9", b"\xffe")],
    *[("default", "/a/", b"a"), ("default", "//", b""), ("default", "/a/0", b"0"), ("default", "/a/<nil>", b"a")],
    *[("default", "/a/b/c", b"b/c"), ("default", b"/\xff/", b"\xff")],
    *[("in turn", "||", b""), ("in turn", "||a|b", b"a|b"), ("in turn", "|upper||", b""), ("in turn", "/upper/trim// a/b ", b"A/B")],
    *[("in turn", "|lower|replace| |-|trunc|5|sh||It's A Day", b"'it'\\''s-'"), ("in turn", "|trunc|2||\u00e9\u00e9\u00e9", "\u00e9\u00e9".encode())],
    *[("in turn", "|indent|2|yaml||a\n\nb", b'"  a\\n\\n  b"'), ("in turn", "|indent|0||a", b"a"), ("in turn", "|trim|| \n ", b"")],
    *[("in turn", "|default|a b|upper||", b"A B"), ("in turn", "|trim|default|x|| ", b"x"), ("in turn", "|replace||x||abc", b"abc")],
    *[("in turn", "|replace|aa|a|replace|a|||banaana", b"bnn"), ("in turn", "|upper|lower|| \u00c9aZ", " \u00c9az".encode())],
    *[("in turn", f"|upper|{name}||it's", made) for name, made in (
        *[("sh", b"'IT'\\''S'"), ("env", b'"IT\'S"'), ("sql", b"'IT''S'"), ("csv", b'"IT\'S"'), ("json", b'"IT\'S"')],
        *[("toml", b'"IT\'S"'), ("yaml", b'"IT\'S"'), ("nginx", b'"IT\'S"'), ("systemd", b'"IT\'S"')],
        *[("systemd command", b'"IT\'S"'), ("attribute", b'"IT&#39;S"')],
    )],
]
# what has no meaning, and the reason
WRONG = {
    "stop: repeat wants a number, a colon and a text": ["", "a", "4", ":a", "-4:a", "a:b"],
    "stop: indent wants a number, a colon and a text": ["", "a", "4", ":a", "-4:a", "a:b"],
    "stop: replace wants /old/new/ and a text": ["", "/", "/a/b"],
    "stop: default wants /other/ and a text": ["", "/", "/a"],
    "stop: in turn wants |STEP|..|| and a text": ["", "|", "|upper", "|upper|", "|replace|a||", "|trunc||", "|default|a|b"],
    "stop: in turn quotes as its last step alone": ["|sh|upper||a", "|sh|sh||a"],
    "stop: in turn knows no such step": ["|shout||a", "| upper||a"],
}
# the template of a reason that does not begin with its name
NAMED = {why: "in turn" for why in WRONG if why.startswith("stop: in turn")}


def rendered(name, text):
    """What a template makes of a text."""
    if isinstance(text, str):
        RUNNER.lay(b"d", json.dumps(text).encode())
        RUNNER.lay(b"m", f'{{{{template "{name}" .}}}}'.encode())
        return RUNNER.run([b"--data", b"d", b"m", *FILES])
    RUNNER.lay(b"m", b'{{template "%s" "%s"}}' % (name.encode(), b"".join(b"\\x%02x" % it for it in text)))
    return RUNNER.run([b"m", *FILES])


def fault(why):
    return lambda got: got[0] == 1 and got[2].endswith(f': no template "{why}"\n'.encode())


def gives(made):
    return lambda got: got == (0, made, b"")


def is_read(name, text):
    reader, _, _ = QUOTES[name]
    if name == "attribute" and isinstance(text, str):
        text = text.replace("\0", "\ufffd")
    wanted = text.encode() if isinstance(text, str) else text

    def fits(got):
        try:
            return (got[0], got[2]) == (0, b"") and reader(got[1]) == wanted
        except (ValueError, KeyError, subprocess.CalledProcessError, sqlite3.Error, yaml.YAMLError if yaml else ValueError):
            return False

    return fits


def cases():
    """The template, the text, and whether what came of it fits."""
    for name, (reader, takes_all, no_nul) in QUOTES.items():
        for text in [*texts(), *(ill_formed() if takes_all else [])] * bool(reader):
            has = lambda sign: (sign in text) if isinstance(text, str) else sign.encode() in text
            if no_nul and has("\0") or name == "nginx" and has("$"):
                reasons = [no_nul] * has("\0") + ["stop: nginx has no quote for a $"] * (name == "nginx" and has("$"))
                yield name, text, lambda got, reasons=reasons: any(fault(why)(got) for why in reasons)
            else:
                yield name, text, is_read(name, text)
    for name, (makes, before) in OTHERS.items():
        for text in texts():
            yield name, before + text, gives(makes(text.encode()))
        for text in ill_formed():
            yield name, before.encode() + text, gives(makes(text))
    for name, text, made in FORMS:
        yield name, text, gives(made)
    for why, them in WRONG.items():
        for text in them:
            yield NAMED.get(why, why.split()[1]), text, fault(why)


NGINX = b"""daemon off; master_process off; pid pid; error_log stderr crit; events {}
http { access_log off; client_body_temp_path a; proxy_temp_path b; fastcgi_temp_path c; uwsgi_temp_path d; scgi_temp_path e;
server { listen unix:%s/socket; %s } }
"""


def answered(path, number):
    """The body that a server answers on a socket."""
    with socket.socket(socket.AF_UNIX) as it:
        it.connect(path)
        it.sendall(b"GET /%d HTTP/1.0\r\n\r\n" % number)
        return it.makefile("rb").read().partition(b"\r\n\r\n")[2]


def nginx_cases():
    """Texts that nginx itself reads as parameters and answers, where it is there: each at a place of its own."""
    if tools.lack("nginx", "what it reads of quoted texts"):
        return
    them = [it for it in [*texts(), *ill_formed()] if not any((sign if isinstance(it, str) else sign.encode()) in it for sign in "\0$")]
    places = [b"location = /%d { return 200 %s; }" % (at, rendered("nginx", it)[1]) for at, it in enumerate(them)]
    with tempfile.TemporaryDirectory() as folder:
        with open(f"{folder}/nginx.conf", "wb") as it:
            it.write(NGINX % (folder.encode(), b"\n".join(places)))
        words = ["nginx", "-p", folder, "-c", f"{folder}/nginx.conf"]
        with subprocess.Popen(words, stdin=subprocess.DEVNULL, stderr=subprocess.PIPE) as ran:
            while ran.poll() is None and not os.path.exists(f"{folder}/socket"):
                time.sleep(0.01)
            for number, text in enumerate(them):
                wanted = text.encode() if isinstance(text, str) else text
                got = answered(f"{folder}/socket", number) if ran.poll() is None else ran.stderr.read()
                yield f"nginx itself of {text!r}", [] if got == wanted else [f"    it answers {got}"]
            ran.terminate()


def drawn(random_, depth):
    """Data of any kind."""
    kind = random_.randrange(7 if depth else 5)
    if kind < 5:
        return random_.choice([None, True, False, 0, -(2**63), 42, "", "[1 2]", "map[a:1]", "<no value>", "é'\"\\\n", "true", "5", "\0", "a\x85b\x9f"])
    if kind == 5:
        return [drawn(random_, depth - 1) for _ in range(random_.randrange(4))]
    return {random_.choice(PARTS): drawn(random_, depth - 1) for _ in range(random_.randrange(4))}


def data_cases():
    random_ = random.Random(3)
    for _ in range(200):
        data = drawn(random_, 4)
        got = of_data('{{template "to json" .}}', data)
        yield f"to json {data!r}", [] if got[0] == 0 and json.loads(got[1]) == data else [f"    it comes to {got}"]
        if yaml:
            got = of_data('{{template "to yaml" .}}', data)
            yield f"to yaml {data!r}", [] if got[0] == 0 and yaml.safe_load(got[1]) == data else [f"    it comes to {got}"]
    for data in ([], ["\0"], [1, True, False, -5], [*texts()], *([*texts()][at : at + 3] for at in range(40))):
        wanted = ", ".join(it if isinstance(it, str) else json.dumps(it) for it in data).encode()
        got = of_data('{{template "join" .}}', data)
        yield f"join {data!r}", [] if got == (0, wanted, b"") else [f"    it comes to {got}"]
    for data, wanted in (({}, b"d d"), ({"x": None}, b"d d"), ({"x": ""}, b"d d"), ({"x": 0}, b"0 d"), ({"x": False}, b"false d")):
        got = of_data('{{template "default" (print "/d/" .x)}} {{or .x "d"}}', data)
        yield f"default of {data!r}", [] if got == (0, wanted, b"") else [f"    it comes to {got}"]


def of_data(template, data):
    """What a template gives of data."""
    RUNNER.lay(b"d", json.dumps(data).encode())
    RUNNER.lay(b"m", template.encode())
    return RUNNER.run([b"--data", b"d", b"m", *FILES])


def seconds(run, runs):
    """The least processor time of a number of runs, and what came of the last."""
    least = []
    for _ in range(runs):
        before = resource.getrusage(resource.RUSAGE_CHILDREN)
        got = run()
        after = resource.getrusage(resource.RUSAGE_CHILDREN)
        least.append(after.ru_utime + after.ru_stime - before.ru_utime - before.ru_stime)
    return min(least), got


def too_slow(run, short_run):
    """What a run gives, and whether it takes far more than eight times as long as one of an eighth."""
    took, got = seconds(run, 1)
    short, _ = seconds(short_run, 2)
    slow = [f"    it takes {took:.2f} s, and {short:.2f} s for an eighth"] * (took > 8 * SLOWER * max(short, 0.01))
    return got, slow + [f"    it comes to {got[0]}, {got[2]}"] * bool(got[0])


def long_cases():
    """Each template over a long text, whose quote is read too, beside one an eighth as long; and a list of as many bytes."""
    text = "it's \"é\"\\ 100%\n"
    text *= LONG // len(text.encode())
    for name in [*QUOTES, *OTHERS]:
        before = OTHERS[name][1] if name in OTHERS else ""
        got, wrong = too_slow(lambda: rendered(name, before + text), lambda: rendered(name, before + text[: len(text) // 8]))
        if name in QUOTES and QUOTES[name][0]:
            wrong += [] if is_read(name, text)(got) else ["    what is read is not the text"]
        elif name in OTHERS:
            wrong += [] if got[1] == OTHERS[name][0](text.encode()) else ["    it is another text"]
        yield f"{name} of {LONG} bytes", wrong
    items = text.splitlines(keepends=True)
    wanted = {"to json": lambda got: json.loads(got) == items, "join": lambda got: got == ", ".join(items).encode()}
    for name, fits in wanted.items():
        said = f'{{{{template "{name}" .}}}}'
        got, wrong = too_slow(lambda: of_data(said, items), lambda: of_data(said, items[: len(items) // 8]))
        yield f"{name} of a list of {LONG} bytes", wrong or ([] if fits(got[1]) else ["    it is another text"])


def main():
    global RUNNER
    if not harness.is_built():
        return harness.closing(0, 1)
    for name in ("tomllib", "yaml"):
        tools.lack(name, "what it reads of quoted texts")
    csv.field_size_limit(1 << 24)
    RUNNER = harness.Runner()
    for file in FILES:
        with open(f"{FOLDER}/{file.decode()}", "rb") as it:
            RUNNER.lay(file, it.read())
    results = []
    for name, text, fits in cases():
        got = rendered(name, text)
        results.append((f"{name} of {text!r}", 1, [] if fits(got) else [f"    it comes to {got}"]))
    results += [(name, 1, wrong) for name, wrong in [*nginx_cases(), *data_cases(), *long_cases()]]
    passed, failed, runs = harness.tally(results)
    failed += harness.too_few("texts were quoted", runs, LEAST)
    return harness.closing(passed, failed)


if __name__ == "__main__":
    sys.exit(main())
