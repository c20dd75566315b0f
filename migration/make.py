"""Makes the tables of docs/MIGRATION.md and crates/tmpl_hints/src/instead.rt of functions.json, which says for each function of Sprig, Helm,
gomplate, consul-template and Jinja what serves here. With `--check` it writes nothing, and tells which file is not as it would make it.

In functions.json a tool has rows: what it has there (`there`) and what serves here (`here`), as the document has them; what stands there
in backquotes and is no template (`other`); and what tmpl-check says of the functions of these names (`says`), where backquotes stand around
what can be copied, with templates that have it, data, and what they give (`tries`). tests/check/migration.py tries all of it."""
import json
import os
import re
import sys

HERE = os.path.dirname(os.path.abspath(__file__))
TOP = os.path.dirname(HERE)
DOCUMENT = f"{TOP}/docs/MIGRATION.md"
CODE = f"{TOP}/crates/tmpl_hints/src/instead.rt"
HEAD = "| There | Here |\n|---|---|\n"
BEGINNING = '''//! What to write for functions that other tools have: made by migration/make.py of migration/functions.json.

/// Functions of other tools, their names parted by spaces, and what serves in their place.
struct Row {
    names: &'static str,
    text: &'static str,
}

/// What to write in place of this function of another tool, if something serves.
pub(crate) fn instead_of(name: &[u8]) -> Option<&'static str> {
    text_in(%s.as_slice(), name)
%s}

/// The text of the row that has this name.
fn text_in(rows: &[Row], name: &[u8]) -> Option<&'static str> {
    for row in rows {
        if row.names.split(' ').any(|known| known.as_bytes() == name) {
            return Some(row.text);
        }
    }
    None
}
'''


def tools():
    """The rows of each tool, by its title in the document."""
    with open(f"{HERE}/functions.json", encoding="utf-8") as it:
        return json.load(it)


def table(rows):
    return HEAD + "".join(f"| {row['there']} | {row['here']} |\n" for row in rows)


def document(text):
    """The document with each table as it is to be: the first after the title of its tool."""
    for title, rows in tools().items():
        at = text.index(HEAD, text.index(f"\n## {title}\n"))
        text = text[:at] + table(rows) + text[text.index("\n\n", at) + 1 :]
    return text


def quoted(text):
    return '"' + text.replace("\\", "\\\\").replace('"', '\\"') + '"'


def code():
    """The rows as code, a table for each tool that has functions."""
    given = {title.partition(",")[0]: [it for row in rows for it in row["says"]] for title, rows in tools().items()}
    given = {title: its for title, its in given.items() if its}
    names = [re.sub(r"\W", "_", title).upper() for title in given]
    out = BEGINNING % (names[0], "".join(f"        .or(text_in({name}.as_slice(), name))\n" for name in names[1:]))
    for name, (title, its) in zip(names, given.items()):
        out += f"\n/// Of {title}.\nstatic {name}: [Row; {len(its)}] = [\n"
        for it in its:
            out += f"    Row {{\n        names: {quoted(it['names'])},\n        text: {quoted(it['say'].replace('`', ''))},\n    }},\n"
        out += "];\n"
    return out


def main():
    with open(DOCUMENT, encoding="utf-8") as it:
        made = {DOCUMENT: document(it.read()), CODE: code()}
    wrong = []
    for path, text in made.items():
        if "--check" in sys.argv[1:]:
            with open(path, encoding="utf-8") as it:
                wrong += [path] if it.read() != text else []
        else:
            with open(path, "w", encoding="utf-8") as it:
                it.write(text)
    for path in wrong:
        print(f"{os.path.relpath(path, TOP)} is not what migration/make.py makes")
    return bool(wrong)


if __name__ == "__main__":
    sys.exit(main())
