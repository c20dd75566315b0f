"""Makes the man pages of this folder: tmpl.1 of docs/COMMAND.md, tmpl-check.1 of docs/CHECK.md and tmpl-language.7 of docs/LANGUAGE.md. With `--check` it
writes nothing, and tells which page is not as it would make it. It reads the Markdown that these documents have, and no more."""
import os
import re
import sys

HERE = os.path.dirname(os.path.abspath(__file__))
DOCS = f"{os.path.dirname(HERE)}/docs"
PAGES = {
    "tmpl.1": ("COMMAND.md", "renders templates in the language of Go's text/template"),
    "tmpl-check.1": ("CHECK.md", "reports the errors in template files: where each is, and what to write instead"),
    "tmpl-language.7": ("LANGUAGE.md", "the language of the templates that tmpl renders"),
}
NAMES = {"COMMAND.md": "tmpl(1)", "CHECK.md": "tmpl-check(1)", "LANGUAGE.md": "tmpl-language(7)"}
# code, a link, bold and italic text
INLINE = re.compile(r"`` (.+?) ``|`([^`]+)`|\[((?:[^\[\]`]|`[^`]*`)+)\]\(([^)]*)\)|\*\*(.+?)\*\*|\*([^*]+)\*")
ITEM = re.compile(r"(?:-|([0-9]+\.)) ", re.MULTILINE)
CELLS = re.compile(r"(?<!\\)\|")


def escaped(text):
    """Text as roff reads it."""
    return text.replace("\\", "\\e").replace("-", "\\-").replace("'", "\\(aq").replace("^", "\\(ha").replace("~", "\\(ti")


def plain(text):
    """Text outside of code, whose hyphens are those of words."""
    return text.replace("\\", "\\e").replace("^", "\\(ha").replace("~", "\\(ti")


def inline(text):
    """A stretch of text with its code, links, bold and italic text."""
    out, at = [], 0
    for found in INLINE.finditer(text):
        out.append(plain(text[at : found.start()]))
        wide, code, said, to, bold, italic = found.groups()
        if wide or code:
            out.append(f"\\fB{escaped((wide or code).replace(chr(92) + '|', '|'))}\\fR")
        elif said:
            out.append(inline(said) if said not in NAMES else "")
            page = NAMES.get(to.partition("#")[0])
            if page:
                out.append(f"\\fB{page}\\fR" if said in NAMES else f" (\\fB{page}\\fR)")
        else:
            out.append(f"\\fI{inline(bold or italic)}\\fR")
        at = found.end()
    return "".join([*out, plain(text[at:])])


def lines(text):
    """A paragraph, with nothing at the start of a line that roff takes for a request."""
    text = inline(text)
    return "\\&" + text if text[:1] in ".'" else text


def cells(line):
    return [it.strip() for it in CELLS.split(line.strip().strip("|"))]


def table(rows):
    """A table: each row is an item, headed by its first cell, with the heads of the further columns where there are several."""
    heads, _, *rest = map(cells, rows)
    out = []
    for head, *more in rest:
        if heads[1:] == ["From"]:
            out += [".IP \\(bu 2", lines(f"{head} ({more[0]})")]
            continue
        said = []
        for name, cell in zip(heads[1:], more):
            if cell:
                said.append(f"({cell})" if name == "From" else cell if len(heads) == 2 or heads[2:] == ["From"] else f"{name}: {cell}.")
        out += [".TP", lines(head or "\u2002"), lines(" ".join(said) or "\u2002")]
    return [*out, ".PP"]


def listed(held):
    """The items of a list, which may have blocks of code of their own."""
    out, text, block = [], [], []

    def end():
        nonlocal text, block
        out.extend([lines(" ".join(" ".join(text).split()))] if text else [])
        out.extend(code(block, ".IP") if block else [])
        text, block = [], []

    for it in held:
        found = ITEM.match(it)
        if found:
            end()
            out.append(f'.IP "{found[1]}" 4' if found[1] else ".IP \\(bu 2")
            text = [it[found.end() :]]
        elif it.startswith("      "):
            block.append(it.strip())
        elif it.strip():
            if block:
                end()
            text.append(it)
    end()
    return [*out, ".PP"]


def code(block, start=".PP"):
    return [start, ".in +4n", ".EX", *("\\&" * (it[:1] in (".", "'")) + escaped(it) for it in block), ".EE", ".in"]


def blocks(text):
    """The blocks of a document: kind and lines."""
    kind, held = None, []
    fenced = False
    for line in [*text.splitlines(), ""]:
        if line.startswith("```"):
            if fenced:
                yield "code", held
            elif held:
                yield kind, held
            fenced, kind, held = not fenced, None, []
        elif fenced:
            held.append(f"    {line}")
        elif line.startswith("<!-- "):
            continue  # it is for tests/gate/documents.py
        elif kind == "list" and line.startswith("  ") and line.strip():
            held.append(line)
        elif kind in ("code", "list") and not line.strip():
            held.append("")  # it may go on
        else:
            its = kind_of(line, kind)
            if its != kind and held:
                yield kind, held
                held = []
            kind = its
            held += [line] if line.strip() else []
    if held:
        yield kind, held


def kind_of(line, before):
    if line.startswith("#"):
        return "head"
    if line.startswith("|"):
        return "table"
    if ITEM.match(line):
        return "list"
    if line.startswith("    ") and line.strip() and before != "text":
        return "code"
    return "text" if line.strip() else None


def body(text):
    out = []
    for kind, held in blocks(text):
        if kind == "head":
            for it in held:
                level, _, title = it.partition(" ")
                out += [f".SH {inline(title).upper()}" if level == "##" else f".SS {inline(title)}"]
        elif kind == "table":
            out += table(held)
        elif kind == "code":
            block = [it[4:] if it.startswith("    ") else it for it in held]
            while block and not block[-1].strip():
                block.pop()
            out += code(block)
        elif kind == "list":
            out += listed(held)
        elif kind == "text":
            out += [".PP", lines(" ".join(" ".join(held).split()))]
    return out


def page(name):
    """The man page of this name."""
    source, about = PAGES[name]
    with open(f"{DOCS}/{source}", encoding="utf-8") as it:
        title, _, text = it.read().partition("\n")
    if not title.startswith("# "):
        raise ValueError(f"{source} does not begin with its title")
    head, _, section = name.rpartition(".")
    out = ['.\\" Made by man/make.py from docs/' + source + ".", f'.TH {escaped(head.upper())} {section} "" Rilphong']
    out += [".SH NAME", f"{escaped(head)} \\- {plain(about)}"]
    if section == "1":
        usage = re.search(rf"^    ({head} .*)$", text, re.MULTILINE)
        text = text.replace(usage.group() + "\n", "", 1)
        out += [".SH SYNOPSIS", f".B {escaped(usage[1])}"]
    out += [".SH DESCRIPTION", *body(text.lstrip("\n"))]
    out += [".SH SEE ALSO", ", ".join(f"\\fB{escaped(it)}\\fR" for it in NAMES.values() if not it.startswith(f"{head}("))]
    return "\n".join(out) + "\n"


def main(words):
    wrong = []
    for name in PAGES:
        path, made = f"{HERE}/{name}", page(name)
        if words == ["--check"]:
            with open(path, encoding="utf-8") as it:
                wrong += [name] * (it.read() != made)
        else:
            with open(path, "w", encoding="utf-8") as it:
                it.write(made)
    for name in wrong:
        print(f"man/{name} is not what man/make.py makes: run it")
    return 1 if wrong else 0


if __name__ == "__main__":
    sys.exit(main(sys.argv[1:]))
