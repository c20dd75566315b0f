"""Refuses words that only this project uses, in all that users read, and names the standard term for each. It reads documents without code and
blocks, man pages, the strings of `tmpl-check` and of the command, completions, headers and bindings.

    wording.py              all of these, and the comments of src and specs of the crates in COMMENTED
    wording.py --source     only lists what it finds in the comments of src and specs of all crates

Words with an ordinary second use are not judged alone, but in phrases: `text` and `texts` (a template has texts and actions), `word` and
`words` (a message has them), `status` (a call of the C library returns one, a process exits with one), `front` (in front of, a front end),
`place`, `tell` and `it has`. What is in backquotes is a name, as the clause `matches_spec` is, and is not read."""
import glob
import os
import re
import sys

from tests.gate import documents
from tests.lib import harness

LEAST = 80  # files
# what is refused, and what to write
TERMS = [(re.compile(pattern, re.IGNORECASE), write) for pattern, write in (
    (r"\btold\b(?! apart)|\b(?:clause|law|contract|promise|definition)s? tells?\b", "states, reported, printed or proved"),
    (r"\blen(?:t|ds?|ding)\b", "caller-provided buffer; borrowed"),
    (r"\bwant of memory\b|\brefused memory\b|\bmemory (?:is|was|be|were) refused\b|\brefus(?:es?|ing) (?:\w+ )?memory\b", "out of memory; an allocation failed"),
    (r"\bas far as there is room\b", "truncated to the capacity of the buffer"),
    (r"\bwhole numbers?\b", "integer"),
    (r"\btruth values?\b", "boolean"),
    (r"\bwords of (?:a|the|its) command(?: line)?\b|\bcommand's words\b|\bwords (?:that )?ask for\b", "arguments, options"),
    (r"(?<!exit )\bstatus [0-7]\b", "exit status"),
    (r"\bput(?:s|ting)? out\b", "write, print; the output"),
    (r"\bsums\b", "checksums"),
    (r"\bfronts\b|\b(?:a|each|every) front\b(?! end| matter)", "prefix"),
    (r"\ba beginning\b|\bbeginnings\b", "a prefix of the output"),
    (r"\bgo(?:es|ne|ing)? over\b|\bwent over\b|\bgone on\b", "visits; the analysis continues"),
    (r"\bhand(?:s|ed|ing) (?:on|over)\b|\bhand over\b", "passes"),
    (r"\bdoubt(?:s|ed)?\b", "alarm"),
    (r"\bfailures? that (?:is|are) shown\b|\bdata for which (?:it|the template|a template) fails\b", "counterexample"),
    (r"\borigins?\b", "provenance"),
    (r"\b(?:until|what|all)(?: \w+){0,6} settles?\b", "reaches a fixpoint; converges"),
    (r"\bwrong bod(?:y|ies)\b", "mutant"),
    (r"\bbeliev(?:e|ed|es|ing)\b", "trusted specification; trusted"),
    (r"\bstands? twice\b", "duplicated"),
    (r"\bplaces? (?:of a text )?without white space\b", "position in the text"),
    (r"\b(?:is|are|was|were|be) said of\b|\bwhat is said\b", "the message"),
    (r"\bit has not\b|\| It has \|", "Supported, Not supported"),
    (r"\bwhoever has no toolchain\b", "No binaries are published yet; building needs the toolchain"),
)]
# what stands all the same: files, what is found, and why
EXCEPTIONS = (
    ("docs/EMBEDDING.md bindings/ crates/tmpl_c/", r"status [0-7]", "a call of the C library returns a status, which is no exit status"),
    ("crates/tmpl_hints/src/instead.rt", r"puts out", "names of functions of other tools, one after the other"),
)
# the crates whose strings are messages or help
SPOKEN = ["tmpl_formats", "tmpl_hints", "tmpl_problems", "tmpl_shape", "tmpl_schema", "tmpl_json_schema", "tmpl_report", "tmpl_check", "tmpl_tool"]
# .. and those whose comments are held to this too
COMMENTED = ["tmpl_formats", "tmpl_hints", "tmpl_problems", "tmpl_shape", "tmpl_loops", "tmpl_schema", "tmpl_json_schema", "tmpl_report", "tmpl_tool", "tmpl_check", "tmpl_c"]
# .. and of these the whole text, or comments and strings
WHOLE = ["bindings/python/*.py", "completions/*"]
BOUND = ["bindings/c/*.[ch]", "bindings/c/*.hpp", "bindings/go/tmpl.go", "bindings/rust/src/*.rs", "bindings/javascript/*.mjs", "bindings/javascript/*.ts"]
CODE = re.compile(r"^```.*?^```$|^    [^\n]*|<!--.*?-->|``.+?``|`[^`]*`|\]\([^()\s]*\)", re.MULTILINE | re.DOTALL)
BOLD = re.compile(r"\\fB.*?\\fR|^\.\\\"[^\n]*|^\.EX.*?^\.EE$", re.MULTILINE | re.DOTALL)
SPEECH = re.compile(r'/\*.*?\*/|//[^\n]*|"(?:[^"\\\n]|\\.)*"', re.DOTALL)
STRING = re.compile(r'"(?:[^"\\\n]|\\.)*"')
COMMENT = re.compile(r"(?://|--).*$", re.MULTILINE)
LEADER = re.compile(r"^\s*(?:///?|//!|/?\*+|#+|--+)", re.MULTILINE)  # what begins a line of a comment


def blank(found):
    """As many spaces and newlines."""
    return re.sub(r"[^\n]", " ", found[0])


def only(pattern, text):
    """A text that has what is found of a pattern alone, where it was."""
    kept, at = [], 0
    for found in pattern.finditer(text):
        kept += [re.sub(r"[^\n]", " ", text[at : found.start()]), found[0]]
        at = found.end()
    return "".join([*kept, re.sub(r"[^\n]", " ", text[at:])])


def without_comments(text):
    return re.sub(r"^\s*//.*$", blank, text, flags=re.MULTILINE)


def paths(*patterns):
    found = (path for pattern in patterns for path in glob.glob(f"{harness.TOP}/{pattern}", recursive=True))
    return sorted(os.path.relpath(it, harness.TOP) for it in found if os.path.isfile(it))


def texts():
    """What is judged, by file, with all else blank."""
    for path in documents.documents():
        yield path, CODE.sub(blank, read(path))
    for path in paths("man/*.[17]"):
        yield path, BOLD.sub(blank, read(path))
    for path in paths(*(f"crates/{it}/src/**/*.rt" for it in SPOKEN)):
        yield path, only(STRING, without_comments(read(path)))
    for path in paths(*WHOLE):
        yield path, LEADER.sub(blank, read(path))
    for path in paths(*BOUND):
        yield path, LEADER.sub(blank, only(SPEECH, read(path)))


def comments(crates=("*",)):
    """The comments of the code and of the definitions of crates."""
    for path in paths(*(f"crates/{crate}/{part}" for crate in crates for part in ("src/**/*.rt", "specs/**/*.antt"))):
        yield path, LEADER.sub(blank, only(COMMENT, read(path)))


def read(path):
    with open(f"{harness.TOP}/{path}", encoding="utf-8") as it:
        return it.read()


def is_excepted(path, found):
    return any(path.startswith(tuple(names.split())) and re.fullmatch(pattern, found, re.IGNORECASE) for names, pattern, _ in EXCEPTIONS)


def joined(text):
    """A text with one space in place of any white space, and of each byte of it the place in the text."""
    places = [it.start() for it in re.finditer(r"\S|(?<!\s)\s", text)]
    return "".join(text[at] if not text[at].isspace() else " " for at in places), places


def wrong(path, text):
    """What is refused in a text: a line for each, by its place. A phrase may be on two lines."""
    flat, places = joined(text)
    found = [(places[it.start()], it[0], write) for pattern, write in TERMS for it in pattern.finditer(flat) if not is_excepted(path, it[0])]
    return [f'    {path}:{text.count(chr(10), 0, at) + 1}: "{said}": write {write}' for at, said, write in sorted(found)]


def main(words):
    if words == ["--source"]:
        print(*(line.strip() for path, text in comments() for line in wrong(path, text)), sep="\n")
        return 0
    passed, failed, count = harness.tally((path, 1, wrong(path, text)) for path, text in (*texts(), *comments(COMMENTED)))
    failed += harness.too_few("files were read", count, LEAST)
    return harness.closing(passed, failed)


if __name__ == "__main__":
    sys.exit(main(sys.argv[1:]))
