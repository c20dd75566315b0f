"""Tokenizes the templates of the rows and examples by the grammar of editors/textmate, line by line as editors do, and holds the tokens
against those of the small reading of templates: of a template that can be read they must be the same, and in one that `tmpl` accepts nothing
may be marked as illegal. The grammar must know the functions of docs/LANGUAGE.md, and mark what is refused in some templates. Where Vim is
there its groups must be those of the grammar, in the templates of the examples and in those that are refused. And the folder must be one that
VS Code takes: its names must be those of files."""
import functools
import glob
import itertools
import json
import os
import re
import shutil
import subprocess
import sys
import tempfile

from tests.lib import harness
from tests.oracle import reading, table

GRAMMAR = f"{harness.TOP}/editors/textmate/gotmpl.tmLanguage.json"
LEAST = 650  # templates
LONGEST = 20_000  # bytes of a template
# the scope of each kind of token, but for words, which have one of WORDS
SCOPES = {
    "number": "constant.numeric", "field": "variable.other.member", "dot": "variable.language.dot", "variable": "variable.other",
    "string": "string.quoted.double", "raw": "string.quoted.other.raw", "char": "string.quoted.single", "sign": "keyword.operator",
}
PARENS = "punctuation.section.parens"
# what is marked as illegal in templates that are refused
ILLEGAL = {
    "{{name}}": "name", "{{.a-b}}": "-", '{{"\\q"}}': "\\q", "{{1.5}}": "1.5", "{{08}}": "08", "{{.x == 1}}": None, "{{'ab}}": "'",
    "{{.x}": "}", "{{.x | upper}}": "upper", "{{ /* c */}}": "/", "{{1a}}": "1a", "{{.x-}}": "-", "{{!x}}": "!", "{{;}}": ";",
}
# Vim's groups; those of what is illegal are one
GROUPS = {
    "": None, "gotmplAction": None, "gotmplDelimiter": None, "gotmplComment": "comment.block", "gotmplKeyword": "keyword.control",
    "gotmplFunction": "support.function", "gotmplConstant": "constant.language", "gotmplNumber": "constant.numeric", "gotmplField": "variable.other.member",
    "gotmplDot": "variable.language.dot", "gotmplVariable": "variable.other", "gotmplOperator": "keyword.operator", "gotmplParens": PARENS,
    "gotmplCharacter": "string.quoted.single", "gotmplString": "string.quoted.double", "gotmplEscape": "string.quoted.double",
    "gotmplRaw": "string.quoted.other.raw", **dict.fromkeys(("gotmplError", "gotmplUnknown", "gotmplBadNumber", "gotmplBadEscape"), "invalid"),
}
VIM = """set nocompatible encoding=utf-8
let &runtimepath = '%s/editors/vim,' . &runtimepath
filetype plugin on
syntax on
for number in range(0, %d)
  execute 'edit' number . '.tmpl'
  syntax sync fromstart
  let found = []
  for line in range(1, line('$'))
    call add(found, join(map(range(1, col([line, '$']) - 1), {_, it -> synIDattr(synID(g:line, it, 1), 'name')}), ','))
  endfor
  call writefile(found, number . '.groups')
endfor
qall!
"""


@functools.lru_cache(maxsize=None)
def compiled(pattern):
    return re.compile(pattern, re.MULTILINE)


def read_grammar():
    with open(GRAMMAR, encoding="utf-8") as it:
        return json.load(it)


def included(grammar, patterns):
    return [grammar["repository"][it["include"][1:]] if "include" in it else it for it in patterns]


class Line:
    """A line, with the next match of each pattern in it."""

    def __init__(self, text):
        self.text, self.known = text, {}

    def next(self, pattern, at):
        found = self.known.get(pattern)
        if pattern not in self.known or found and found.start() < at:
            found = self.known[pattern] = compiled(pattern).search(self.text, at)
        return found

    def first(self, rules, at):
        """The match that begins first, and of these that of the first rule."""
        found = [(rule, self.next(rule.get("match") or rule["begin"], at)) for rule in rules]
        return min(((rule, it) for rule, it in found if it), key=lambda its: its[1].start(), default=(None, None))


def tokens(grammar, text):
    """What the grammar makes of a text: names, pieces and where they begin, a string or comment as one, and after it what is illegal in it;
    and what is open at the end. A region is kept with its token, which no action has."""
    out, stack, begin = [], [], 0
    for line in map(Line, re.findall(r"[^\n]*\n|[^\n]+", text)):
        at = 0
        while at < len(line.text):
            top, token = stack[-1] if stack else (grammar, None)
            rule, found = line.first(included(grammar, top.get("patterns", [])), at)
            end = line.next(top["end"], at) if stack else None
            if end and not (found and found.start() < end.start()):
                rule, found = None, end
            until, after = found.span() if found else (len(line.text), len(line.text))
            if token:
                token[1] += line.text[at : after if found and not rule else until]
            if found and not rule:
                stack.pop()
            elif found and "action" in rule["name"]:
                stack.append((rule, None))
            elif found and token and rule["name"].startswith("constant.character"):
                token[1] += found.group()
            elif found:
                if token:
                    token[1] += found.group()
                out.append([rule["name"].removesuffix(".gotmpl"), found.group(), begin + until])
                stack += [(rule, out[-1])] if "begin" in rule else []
            at = after
        begin += len(line.text)
    return out, [rule["name"] for rule, _ in stack]


def scope(kind, spelled):
    if kind == "word":
        return "keyword.control" if spelled in reading.KEYWORDS else "constant.language" if spelled in reading.WORDS else "support.function"
    return PARENS if spelled in (b"(", b")") else SCOPES[kind]


def wanted(data):
    """The tokens of a template file that is accepted, by the small reading."""
    return [(kind, spelled) for _, its in reading.pieces(data) if isinstance(its, tuple) for kind, spelled, _ in its]


def templates():
    """The template files of the rows and examples that are accepted."""
    found = {}
    for row in [*harness.read_rows(), *harness.read_examples()]:
        for name, data in row.files.items():
            if data and b"{{" in data and len(data) <= LONGEST and not name.endswith(".json"):
                found.setdefault(data, f"{row.name}, {name}")
    return {data: name for data, name in found.items() if not reading.refusal(b"t", data)}


def judge(grammar, data):
    came, left = tokens(grammar, data.decode("latin-1"))
    came = [(name, text) for name, text, _ in came if not name.startswith("comment")]
    right = [(scope(kind, spelled), spelled.decode("latin-1")) for kind, spelled in wanted(data)]
    if came == right and not left:
        return []
    at = next((at for at, pair in enumerate(zip(came, right)) if pair[0] != pair[1]), min(len(came), len(right)))
    return [f"    {data[:300]}", f"    came {came[at:at + 3]}, open {left}", f"    wanted {right[at:at + 3]}"]


def judge_functions(grammar):
    rules = {it["name"]: it for it in grammar["repository"]["action"]["patterns"]}
    names = re.match(r"\(\?:([a-z|]+)\)", rules["support.function.gotmpl"]["match"])[1].split("|")
    keywords = re.match(r"\(\?:([a-z|]+)\)", rules["keyword.control.gotmpl"]["match"])[1].split("|")
    yield "functions", 1, [] if names == table.NAMES else [f"    {names}"]
    yield "keywords", 1, [] if sorted(keywords) == sorted(it.decode() for it in reading.KEYWORDS) else [f"    {keywords}"]


def judge_illegal(grammar):
    for text, marked in ILLEGAL.items():
        came, _ = tokens(grammar, text)
        found = [piece for name, piece, _ in came if name.startswith("invalid")]
        yield f"illegal: {text}", 1, [] if marked in found or marked is None and found else [f"    {came}"]


def judge_folder():
    folder = os.path.dirname(GRAMMAR)
    with open(f"{folder}/package.json", encoding="utf-8") as it:
        its = json.load(it)["contributes"]
    (language,), (grammar,) = its["languages"], its["grammars"]
    paths = [f"{folder}/{it}" for it in (language["configuration"], grammar["path"])]
    wrong = [f"    {it} is not there" for it in paths if not os.path.isfile(it)]
    if (grammar["scopeName"], grammar["language"]) != (read_grammar()["scopeName"], language["id"]):
        wrong.append("    the grammar has another name")
    yield "editors/textmate/package.json", 1, wrong


def at_each(came, size):
    """The scope of each character of a text; none for text of a template and for the ends of actions."""
    found = [None] * size
    for name, piece, begin in came:
        found[begin : begin + len(piece)] = [name] * len(piece)
    return found


def judge_vim(grammar):
    """The groups of Vim in the templates of the examples, and in those that are refused: at each character the scope of the grammar."""
    texts = list(ILLEGAL)
    for path in sorted(glob.glob(f"{harness.TOP}/examples/*/*.tmpl")):
        with open(path, encoding="utf-8") as it:
            texts.append(it.read())
    with tempfile.TemporaryDirectory() as folder:
        for number, text in enumerate(texts):
            with open(f"{folder}/{number}.tmpl", "w", encoding="utf-8") as it:
                it.write(text.removesuffix("\n") + "\n")
        with open(f"{folder}/script", "w", encoding="utf-8") as it:
            it.write(VIM % (harness.TOP, len(texts) - 1))
        subprocess.run(["vim", "-e", "-s", "-i", "NONE", "-u", "NONE", "-S", "script"], cwd=folder, stdin=subprocess.DEVNULL, stdout=subprocess.DEVNULL, timeout=300)
        for number, text in enumerate(texts):
            path = f"{folder}/{number}.groups"
            groups = []
            if os.path.exists(path):
                with open(path, encoding="utf-8") as it:
                    groups = it.read().splitlines()
            yield f"Vim over {text[:30]!r}", 1, differences(text, groups, at_each(tokens(grammar, text)[0], len(text)))


def differences(text, groups, scopes):
    """Where the groups of the bytes of a text, a line of them for each of its lines, are not those of the scopes."""
    at = 0
    for line, its in itertools.zip_longest(text.removesuffix("\n").split("\n"), groups, fillvalue=""):
        its, byte = its.split(","), 0
        for character in line:
            group = its[byte] if byte < len(its) else "none"
            right = scopes[at].split(".")[0] if scopes[at] and scopes[at].startswith("invalid") else scopes[at]
            if character not in " \t\r" and GROUPS.get(group, group) != right:
                return [f"    {line}", f"    {character!r}: {group}, and not {right}"]
            at, byte = at + 1, byte + len(character.encode())
        at += 1
    return []


def main():
    grammar = read_grammar()
    results = [*judge_functions(grammar), *judge_illegal(grammar), *judge_folder()]
    if shutil.which("vim"):
        results += judge_vim(grammar)
    else:
        print("Vim's groups are left out, since vim is not there")
    found = templates()
    results += [(name, 1, judge(grammar, data)) for data, name in found.items()]
    passed, failed, _ = harness.tally(results)
    return harness.closing(passed, failed + harness.too_few("templates were tokenized", len(found), LEAST))


if __name__ == "__main__":
    sys.exit(main())
