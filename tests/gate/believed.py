"""Counts the definitions on which the contracts rest, and holds the trusted specification of docs/PROOFS.md against them. It follows the
names in the contracts of `tool`, of the formats, of the C library and of the check, then those in the definitions, and compares the files, and its lines by
crate. They are counted without blank lines, comments and imports, so they change only where the page does. Each clause that the table of
the crates names has to be one of its crate, or a part of the relation by which a clause is stated.

Specs outside `computed/` may import nothing from `proofs/`, of a library no type of the code that is not public, and from `computed/`, but
in files of the name Laws, only what is of a type `One ..`: that there is one value of which a relation holds, and no other. Of such a
definition the type is trusted and the relation in it, and not how the value is found, which the checker looks at."""
import re
import sys
from pathlib import Path

from tests.lib import harness

CRATES = Path(harness.TOP) / "crates"
PAGE = Path(harness.TOP) / "docs" / "PROOFS.md"
# what the contract of `tool` stands on: it, and the traits of what it is given
TOOL = (
    ("tmpl_tool", "src/command.rt", "pub fn tool"),
    ("tmpl_tool", "src/files/source.rt", "pub trait Source"),
    ("tmpl_meaning", "src/sink.rt", "pub trait Sink"),
)
# .. those of the C library
LIBRARY = tuple(("tmpl_c", "src/lib.rt", f'pub extern "C" fn {name}(') for name in (
    "keyed_render", "keyed_set_add", "keyed_check", "tmpl_data_read", "tmpl_data_share", "inner_render_set", "tmpl_set_print",
    "tmpl_program_make", "tmpl_program_share", "inner_render_program", "inner_render_text",
))
# .. and those of what `tmpl-check` says
CHECK = (
    ("tmpl_syntax", "src/examine.rt", "pub fn examine_file"),
    ("tmpl_report", "src/check.rt", "pub fn check_document"),
    ("tmpl_report", "src/samples/search.rt", "pub fn failures_of"),
    ("tmpl_report", "src/findings.rt", "pub fn findings_of"),
    ("tmpl_problems", "src/findings.rt", "pub fn text"),
    ("tmpl_report", "src/infer.rt", "pub fn infer_from"),
)
# .. and the same check for C
IN_C = (("tmpl_c", "src/lib.rt", 'pub extern "C" fn keyed_check_schema('),)
# .. and of the formats of output
FORMATS = (("tmpl_formats", "src/check.rt", "pub fn first_mistake"), ("tmpl_formats", "src/name.rt", "pub fn named"))
# each group of contracts, as the page names it; a definition counts for the first group that comes to it
GROUPS = {"tool": TOOL, "formats": FORMATS, "C library": LIBRARY, "check": CHECK, "check in C": IN_C}

WORD = r"[^\s(){}.,;]+"
BEGINS = re.compile(r"(abbrev|unfoldable|pub|data|record|mutual|module)\b|\S+ :( |$)")
MIXFIX = "◌"
DECLARED = re.compile(r"(tmpl\w*)\.specs\.declared\.([a-z_.]+)\.([A-Z]\w*)")


def plain_lines(path):
    """The lines of a file without comments and blank lines."""
    lines = path.read_text(encoding="utf-8").splitlines()
    return [line for line in lines if line.strip() and not line.lstrip().startswith("--")]


def module_of(path):
    """The crate of a spec, and its module below `specs`."""
    parts = path.relative_to(CRATES).with_suffix("").parts
    return parts[0], ".".join(parts[2:])


class Spec:
    """A file of definitions: what it imports, and its blocks, each with the names that it defines."""

    def __init__(self, path):
        self.path = path
        self.crate, self.module = module_of(path)
        self.imports, self.aliases, self.blocks, self.names = {}, {}, [], {}
        self.used = []
        for line in plain_lines(path):
            if line.startswith(("use ", "pub use ")):
                self.take_import(line)
            elif line.startswith("pub mod ") or line.startswith("mod "):
                continue
            elif BEGINS.match(line):
                self.blocks.append([line])
            else:
                self.blocks[-1].append(line)
        for number, block in enumerate(self.blocks):
            for name in names_of(block):
                self.names[name] = number

    def lines_of(self, number):
        """The lines of a block that are believed: of what there is just one of, its type."""
        block = self.blocks[number]
        return type_of(block) if self.is_computed() and is_only_one(block) else block

    def is_computed(self):
        return "computed" in self.module.split(".")

    def take_import(self, line):
        whole = re.match(r"(?:pub )?use (?:Rattle\.)?([\w.]+?)(?:\.\{(.*)\}| as (\S+))?$", line.strip())
        if not whole:
            raise ValueError(f"{self.path}: {line}")
        path, names, alias = whole.groups()
        self.used.append(path)
        target = re.match(r"(tmpl\w*)\.specs\.(.*)", path)
        if not target or ".declared." in f".{target[2]}.":
            return
        if alias:
            self.aliases[alias] = target.groups()
        for name in (names or "").split(","):
            old, _, new = name.strip().partition(" as ")
            self.imports[new or old] = (*target.groups(), old)


def type_of(block):
    """The lines that say the type of a definition."""
    name = names_of(block)[0]
    end = next((number for number, line in enumerate(block) if line.startswith(("unfolding ", f"{name} ")) and " : " not in line), len(block))
    return block[:end]


def is_only_one(block):
    """Whether a definition says that there is one value of which something holds, and no other."""
    return re.search(r"→ One \S+$|→ One \([^()]*\)$", "\n".join(type_of(block))) is not None


def names_of(block):
    """The names that a block defines: one, those of its constructors, or those of a group."""
    words = block[0].split()
    kinds = [word for word in words if word not in ("abbrev", "unfoldable", "pub")]
    if kinds[0] in ("data", "record"):
        rows = (re.match(r"\s+((?:[^\s(){}→:]+ )+):", line) for line in block[1:] if kinds[0] == "data")
        return [kinds[1]] + [name for row in rows if row for name in row[1].split()]
    if kinds[0] == "mutual":
        return [found[1] for line in block[1:] if (found := re.match(r"\s+pub (?:data |record )?(\S+)", line))]
    return [kinds[0]]


def read_specs():
    specs = [Spec(path) for path in sorted(CRATES.glob("*/specs/**/*.antt"))]
    return {(spec.crate, spec.module): spec for spec in specs}


def wrong_imports(spec, specs):
    """What a believed spec may not import."""
    parts = spec.module.split(".")
    if parts[0] == "computed":
        return []
    own = [path for path in spec.used if path.startswith("tmpl")]
    wrong = [path for path in own if ".proofs." in path or is_hidden(path)]
    if "Laws" not in parts:
        named = [".".join((crate, "specs", module)) for crate, module in spec.aliases.values()]
        wrong += [path for path in named if ".computed" in path]
        wrong += [f"{crate}.specs.{module}.{name}" for crate, module, name in spec.imports.values()
                  if "computed" in module.split(".") and not gives_one(specs[crate, module], name)]
    return [f"{spec.path.relative_to(harness.TOP)} imports {path}" for path in wrong]


def gives_one(spec, name):
    """Whether this definition of a file is one of type `One ..`."""
    return name in spec.names and is_only_one(spec.blocks[spec.names[name]])


def is_hidden(path):
    """Whether this is a type of a library's code that is not public."""
    found = DECLARED.match(path)
    if not found or not (CRATES / found[1] / "src/lib.rt").is_file():
        return False
    code = (CRATES / found[1] / "src" / found[2].replace(".", "/")).with_suffix(".rt").read_text(encoding="utf-8")
    return not re.search(rf"^pub (enum|struct|trait) {found[3]}\b", code, re.MULTILINE)


def references(spec, text):
    """The definitions, of this file or an imported one, that a text names."""
    words = set(re.findall(WORD, text))
    found = {(spec.crate, spec.module, name) for name in words & spec.names.keys()}
    found |= {spec.imports[name] for name in words & spec.imports.keys()}
    for alias, target in spec.aliases.items():
        found |= {(*target, name) for name in re.findall(rf"(?<![\w.]){re.escape(alias)}\.({WORD})", text)}
    for name, target in spec.imports.items():
        if MIXFIX in name and all(part in words for part in name.split(MIXFIX) if part):
            found.add(target)
    return found


def roots(crate, file, item):
    """The definitions that the clauses of an item of the code name."""
    lines = (CRATES / crate / file).read_text(encoding="utf-8").splitlines()
    start = next(number for number, line in enumerate(lines) if line.lstrip().startswith(item))
    margin = lines[start][: len(lines[start]) - len(lines[start].lstrip())]
    end = next((number for number in range(start + 1, len(lines)) if lines[number] in (f"{margin}{{", f"{margin}}}")), len(lines))
    text = "\n".join(lines[start:end])
    found = set()
    for line in lines:
        ghost = re.match(r"\s*ghost use Rattle\.(tmpl\w*)\.specs\.([\w.]+)\.\{(.*)\};", line)
        if ghost and "declared" not in ghost[2]:
            names = [name.strip() for name in ghost[3].split(",")]
            found |= {(ghost[1], ghost[2], name) for name in names if re.search(rf"(?<![\w]){re.escape(name)}(?![\w])", text)}
    if not found:
        raise ValueError(f"{file}: no definition is named by {item}")
    return found


def believed(specs, items):
    """The blocks that these items of the code come to."""
    todo = [name for root in items for name in roots(*root)]
    blocks = set()
    while todo:
        crate, module, name = todo.pop()
        spec = specs[crate, module]
        if name not in spec.names:
            continue  # a name of the library that the file hands on
        number = spec.names[name]
        if (crate, module, number) not in blocks:
            blocks.add((crate, module, number))
            todo += references(spec, "\n".join(spec.lines_of(number)))
    return blocks


SECTION = "## The trusted specification\n"
FILE = re.compile(r"`((?:[a-z]+/)?[A-Z]\w*(?:/[A-Z]\w*)*)`")


def told_by_page():
    """What the page says: the lines and definitions of each group, and of each crate its lines and files."""
    text = PAGE.read_text(encoding="utf-8").partition(SECTION)[2].partition("\n## ")[0]
    groups = {head: (number(lines), number(count)) for head, lines, count in re.findall(r"^\| `?([\w ]+)`? \| ([\d,]+) \| ([\d,]+) \|", text, re.MULTILINE)}
    crates = {}
    for item in re.split(r"\n(?=- |\n)", text):
        if head := re.match(r"- `(tmpl\w*)`, (\d+) lines: ", item):
            crates[head[1]] = int(head[2]), {it.replace("/", ".") for it in FILE.findall(item)}
    return groups, crates


def number(text):
    return int(text.replace(",", ""))


def wrong_page(groups, crates):
    """Where the page is not of these groups and crates."""
    said_groups, said_crates = told_by_page()
    for name, (lines, count) in groups.items():
        if said_groups.get(name) != (lines, count):
            yield f"docs/PROOFS.md: `{name}` has {lines:,} lines of {count} definitions"
    nothing = (0, set())
    for crate in sorted(crates.keys() | said_crates.keys()):
        (lines, files), (said_lines, said_files) = crates.get(crate, nothing), said_crates.get(crate, nothing)
        if lines != said_lines:
            yield f"docs/PROOFS.md: of {crate} {lines} lines are trusted, and not {said_lines}"
        yield from (f"docs/PROOFS.md lacks {file} of {crate}" for file in sorted(files - said_files))
        yield from (f"docs/PROOFS.md names {file} of {crate}" for file in sorted(said_files - files))


ROW = re.compile(r"^\| (?:`(tmpl\w*)`)? ?\| [^|]+ \| .* \| ([^|]*) \|$", re.MULTILINE)


def text_of(pattern):
    return "\n".join(path.read_text(encoding="utf-8") for path in sorted(CRATES.glob(pattern)))


def wrong_clauses():
    """The names in the last column of the table of the crates that are no clause of the crate, and nothing that a clause is stated by."""
    table = PAGE.read_text(encoding="utf-8").partition("\n## By crate\n")[2].partition("\n## ")[0]
    stated, crate = text_of("*/specs/**/*.antt"), None
    for named, cell in ROW.findall(table):
        crate = named or crate
        code = text_of(f"{crate}/src/**/*.rt")
        for name in re.findall(r"`([a-z_0-9]+)`", cell):
            if not re.search(rf"ensures {name} |fn {name}\b", code) and not re.search(rf"pub {name} :", stated):
                yield f"docs/PROOFS.md: {crate} has no clause {name}"


def counted(specs):
    """Of each group the lines and definitions that no group before it comes to, and of each crate all its lines and files."""
    seen, groups, crates = set(), {}, {}
    for name, items in GROUPS.items():
        new = believed(specs, items) - seen
        seen |= new
        groups[name] = sum(len(specs[crate, module].lines_of(at)) for crate, module, at in new), len(new)
    for crate, module, at in seen:
        spec = specs[crate, module]
        lines, files = crates.get(crate, (0, set()))
        crates[crate] = lines + len(spec.lines_of(at)), files | (set() if spec.is_computed() else {module})
    return seen, groups, crates


def wrong_computed(specs, blocks):
    """The definitions that are trusted as a whole, though they only compute; of the others of `computed/` it says that a type is."""
    for crate, module, at in sorted(blocks):
        spec = specs[crate, module]
        if spec.is_computed() and is_only_one(spec.blocks[at]):
            print(f"{crate}: of {module} only a type is trusted, {' '.join(spec.lines_of(at)[0].split()[2:])}")
        elif spec.is_computed():
            yield f"{crate}: {module} is trusted, by {spec.blocks[at][0]}"


def main():
    specs = read_specs()
    wrong = [line for spec in specs.values() for line in wrong_imports(spec, specs)]
    blocks, groups, crates = counted(specs)
    wrong += [*wrong_computed(specs, blocks), *wrong_page(groups, crates), *wrong_clauses()]
    for crate, (lines, files) in sorted(crates.items()):
        print(f"{crate}: {lines} lines are trusted, in {len(files)} files")
    for name, (lines, count) in groups.items():
        print(f"{name}: {lines} lines of {count} definitions")
    for line in wrong:
        print(f"FAILED {line}")
    return harness.closing(max(0, len(specs) - len(wrong)), len(wrong))


if __name__ == "__main__":
    sys.exit(main())
