"""Tries the mutants crates/NAME/edits/*.edit, or by --apply, as the gate does, whether each still applies and compiles. The prover must
refuse each. This is done on a copy of the repository, where they take the place of those of must-fail/, over what earlier runs kept in
out/. Those that change different functions are tried in one check, where each must be refused at its own function; those of which such
checks do not settle this are tried alone, as the gate tries those of must-fail/.

    edits.py [NAME..]     tries the edits of these crates, or of all whose source, definitions or edits have changed since they were all
                          refused; RT_JOBS=N takes N crates side by side, else one
    edits.py --apply      only looks whether each edit of edits/ and of must-fail/ still applies to its file, and, where the crate has
                          changed since, has the compiler's front end read those of edits/ over the libraries that `rt ci` left, so that
                          one which no longer compiles is found; those that change different functions are read together

What was found is kept, by crate, beside a checksum of all that it rests on as that stood when the run began: of the crate's own files, of
the definitions and signatures of the crates below, and of the toolchain. tests/gate/edits.seen says that all bodies of a crate compile;
tests/gate/edits.refused that all were refused, each at a goal, with its name and the day. `--apply` names the crates whose record there is
of another tree."""
import datetime
import functools
import hashlib
import os
import re
import shutil
import subprocess
import sys
import tempfile
from concurrent.futures import ThreadPoolExecutor

from tests.gate import proved
from tests.lib import harness, programs

FOLDERS = ("edits", "must-fail")
REFUSED = ": refused, as it must be"
FRONT_END = re.compile(r"^src/\S+ error.*$", re.MULTILINE)  # what it says where it does not take a file
# the goal that a check names: in a file of answers, unless that only lacks what a body took away, or of one that it has to find an answer for
ANSWERED = r"^(?:\./)?proofs/%s\S+: error: `([^`]+)`: (?!.*(?:has no |not in scope|was not admitted))"
GOAL = re.compile(ANSWERED % "" + r"|^note: src/\S+: it is not proved that .*\(`([^`]+)`\)", re.MULTILINE)
# where a function has no file of answers, since none of its goals wanted one, a check names the goals for which it finds none
UNANSWERED = r"no proof: expected answers in \S+; `search` did not prove `([^`]+)`(?!.*; it calls)"
SEEN = f"{harness.TESTS}/gate/edits.seen"
READ_OF = ("src", "edits")  # what the front end reads of a crate
REFUSED_AT = f"{harness.TESTS}/gate/edits.refused"
TRIED_OF = ("src", "specs", "proofs", "edits")  # what the prover reads of it
HEADS = {
    SEEN: "# Crates of whose wrong bodies (edits/) all compile, each with the checksum of what that rests on; tests/gate/edits.py writes this.\n",
    REFUSED_AT: "# Crates of whose wrong bodies (edits/) all were refused, each with the checksum of what that rests on and the day, and below it the\n"
    "# bodies, each with the goal at which it was refused; tests/gate/edits.py writes this.\n",
}
READ = "only=0 proved=0"  # what a check of no function says at its end


def edits_in(folder):
    return sorted(it for it in os.listdir(folder) if not it.endswith(".md")) if os.path.isdir(folder) else []


def rt(folder, *words):
    """What the toolchain says, both streams in one."""
    streams = {"stdin": subprocess.DEVNULL, "stdout": subprocess.PIPE, "stderr": subprocess.STDOUT}
    return subprocess.run(["rt", *words], cwd=folder, errors="replace", **streams).stdout


def take_edits(crate, kind):
    """Has the edits of that folder of the repository stand in must-fail/ of a crate of the copy, in place of all others."""
    shutil.rmtree(f"{crate}/must-fail", ignore_errors=True)
    source = f"{harness.TOP}/crates/{os.path.basename(crate)}/{kind}"
    if os.path.isdir(source):
        shutil.copytree(source, f"{crate}/must-fail")


def unfit(crate):
    """The edits in must-fail/ of a crate of the copy that can't be applied, and why."""
    names = edits_in(f"{crate}/must-fail")
    told = {it: "its name does not end in .edit" for it in names if not it.endswith(".edit")}
    # what lays out a crate's files also says which edits do not apply
    said = rt(crate, "fmt") if names else ""
    told.update(re.findall(r"note: must-fail/(\S+) cannot be applied, so [^:]*: (.*)", said))
    return told


def apply(room, crates, kind):
    """Prints which edits do not apply, leaves them out of the copy, and counts those that do and those that do not."""
    passed = failed = 0
    for name in crates:
        crate = f"{room}/crates/{name}"
        take_edits(crate, kind)
        told = unfit(crate)
        for edit, why in told.items():
            print(f"BAD EDIT crates/{name}/{kind}/{edit}: {why}", flush=True)
            os.remove(f"{crate}/must-fail/{edit}")
        left = len(edits_in(f"{crate}/must-fail"))
        passed, failed = passed + left, failed + len(told)
    return passed, failed


def attempt(room, name):
    """Tries a crate's edits: how many there are, and those that were refused, each with the goal, or with nothing where none is named."""
    crate = f"{room}/crates/{name}"
    wanted = edits_in(f"{crate}/must-fail")
    refused = settled(crate, name, wanted)
    for edit in refused:
        os.remove(f"{crate}/must-fail/{edit}")
    if not set(wanted) - set(refused):
        return len(wanted), refused
    print(f"{name}: {len(refused)} refused in checks of several, {len(wanted) - len(refused)} to be tried alone", flush=True)
    said = rt(room, "must-fail", name).splitlines()
    told = [it.partition(" ")[2] for it in said if it.startswith("rt: must-fail ")]
    for line in told:
        edit, is_refused, why = line.removeprefix(f"must-fail {name}/").partition(REFUSED)
        if is_refused:
            refused[edit] = goal_in(why.removeprefix(": "))
    # where a library is not proved, no edit is tried
    print(*(told or said[-20:]), sep="\n", flush=True)
    return len(wanted), refused


def settled(crate, name, edits):
    """Those of a crate's edits that checks of several show to be refused, each with the goal. Such a check judges no function that calls
    another which is refused in it, so those that it leaves are tried once more together."""
    refused = {}
    if len(edits) < 2 or not is_proved(crate):
        return refused
    left, told = [it for it in edits if is_inside(crate, it)], edits
    while told:
        told = {}
        for group in parted(crate, left):
            told.update(refused_at_once(crate, name, group) if len(group) > 1 else {})
        refused.update(told)
        left = [it for it in left if it not in told]
    return refused


def is_proved(crate):
    """Whether a crate of the copy is proved as it stands, by what `rt ci` left of it or by a check."""
    try:
        rtlib = proved.toolchain()
        made = {it.name: it for it in rtlib.crates_below(os.path.dirname(crate))}[os.path.basename(crate)]
        is_built = made.makes_rlib() and made.is_built()
    except (ImportError, AttributeError, KeyError):
        is_built = False
    return is_built or re.search("^logic=proved", rt(crate, "check", "--jobs", "1"), re.MULTILINE) is not None


def refused_at_once(crate, name, edits):
    """Those of these edits at whose functions the prover refuses the crate with all of them, each with the goal."""
    said = said_with(crate, edits)
    if FRONT_END.search(said) and len(edits) > 1:
        half = len(edits) // 2
        return {**refused_at_once(crate, name, edits[:half]), **refused_at_once(crate, name, edits[half:])}
    return {it: goal for it in edits if (goal := goal_of(said, name, crate, it))}


def goal_in(text):
    """The first goal that a check names there; nothing where it names none."""
    found = GOAL.search(text)
    return found and (found[1] or found[2])


def goal_of(said, name, crate, edit):
    """The goal at which a check refuses a function that an edit changes, by itself and not for one that it calls. What is said of a
    function stands right before its own line, or names a file of its answers."""
    for path in paths_of(crate, edit):
        line = rf"^fn {name}::{re.escape(path)}: "
        found = re.search(rf"((?:^(?!fn ).*\n)*){line}not proved$", said, re.MULTILINE)
        own = path.replace("::", "/")
        answered = re.search(ANSWERED % rf"(?:{re.escape(own)}|{re.escape(os.path.dirname(own))}/\+[^/]+)/", said, re.MULTILINE)
        if found and (goal := goal_in(found[1]) or answered and answered[1]):
            return goal
        if unanswered := re.search(line + UNANSWERED, said, re.MULTILINE):
            return unanswered[1]
    return None


@functools.lru_cache
def toolchain():
    """What the toolchain says of itself."""
    return subprocess.run(["rt", "version"], stdout=subprocess.PIPE, check=True).stdout


def checksum(top, name, folders):
    """Of these folders of a crate below `top`, of the definitions and signatures of those that it uses, and of the toolchain."""
    told = hashlib.sha256(toolchain())
    parts = [(name, folder) for folder in folders] + [(it, folder) for it in crates_below(name) for folder in ("specs", "src")]
    for crate, folder in parts:
        for place, inside, files in os.walk(f"{top}/crates/{crate}/{folder}"):
            inside.sort()
            for file in sorted(files):
                text = read_file(f"{place}/{file}")
                text = text if crate == name or folder != "src" else signatures(text)
                told.update(f"{os.path.relpath(f'{place}/{file}', top)}\0{text}\0".encode())
    return told.hexdigest()


def crates_below(name):
    """The crates of the repository that a crate uses, itself or through others, by name."""
    uses, found = programs.uses(), [name]
    for it in found:
        found += [other for other in uses[it] if other not in found]
    return sorted(found[1:])


def signatures(text):
    """A file of code without the bodies of its functions."""
    lines, indent, end = [], "", None
    for line in text.splitlines():
        if end is not None:
            end = None if line == end else end
            continue
        lines.append(line)
        begun = FUNCTION.match(line)
        indent = begun[1] if begun else indent
        if line == f"{indent}{{" or begun and line.endswith("{"):
            end = f"{indent}}}"
    return "\n".join(lines)


def told_in(path):
    """What stands there, by crate: the words after its name, and the lines below it."""
    told, name = {}, ""
    for line in read_file(path).splitlines() if os.path.exists(path) else ():
        if line.startswith("  "):
            told[name][1].append(line)
        elif not line.startswith("#"):
            name, *words = line.split()
            told[name] = words, []
    return told


def is_told(path, name, folders):
    """Whether the crate is now as it was when it was written down there."""
    return told_in(path).get(name, [[""]])[0][0] == checksum(harness.TOP, name, folders)


def record(path, new):
    """Writes down of these crates what is told: words, and lines below them."""
    told = {**told_in(path), **new}
    lines = [line for name in sorted(told) for line in (" ".join((name, *told[name][0])), *told[name][1])]
    write_file(path, HEADS[path] + "".join(f"{it}\n" for it in lines))


def changes_of(crate, edit):
    """What an edit changes: each time a file, a text there, and the other."""
    file, old, changes = "", "", []
    for line in read_file(f"{crate}/must-fail/{edit}").splitlines():
        word, _, rest = line.partition(": ")
        if word == "file":
            file = rest
        elif word == "old":
            old = rest
        elif word.startswith("new"):
            changes.append((file, old, rest))
    return changes


def read_file(path):
    with open(path, encoding="utf-8") as it:
        return it.read()


def write_file(path, text):
    with open(path, "w", encoding="utf-8") as it:
        it.write(text)


FUNCTION = re.compile(r"^( *)(?:pub(?:\([a-z]+\))? )?(?:extern \"C\" )?fn (\w+)", re.MULTILINE)


def fronts_of(crate, edit):
    """Of each place that an edit changes its file and what stands before it there, with what is changed."""
    return [(file, read_file(f"{crate}/{file}").partition(old)[0] + old) for file, old, _ in changes_of(crate, edit)]


def places_of(crate, edit):
    """The functions that an edit changes, each by its file, its name and how many stand before it there."""
    found = [(file, FUNCTION.findall(text)) for file, text in fronts_of(crate, edit)]
    return {(file, functions[-1][1] if functions else "", len(functions)) for file, functions in found}


IMPL = re.compile(r"^(?:unsafe )?impl(?:<[^{]*?>)? (?:(\w+)(?:<[^{]*?>)? for )?(?:\w+::)*(\w+)", re.MULTILINE)


def module_of(file):
    """The path of the module that a file has."""
    return [it for it in re.sub(r"\.rt$", "", file).split("/")[1:] if it not in ("lib", "main", "mod")]


def home_of(crate, kind, file):
    """The path of the module that has a type: that of the file itself, where it declares one of this name, else another."""
    others = sorted(os.path.relpath(f"{place}/{it}", crate) for place, _, files in os.walk(f"{crate}/src") for it in files)
    declared = re.compile(rf"^(?:pub(?:\([a-z]+\))? )?(?:struct|enum) {kind}\b", re.MULTILINE)
    return next((module_of(it) for it in (file, *others) if declared.search(read_file(f"{crate}/{it}"))), None)


def path_of(crate, file, before):
    """The path, below the crate, of the last function that stands in what is before a place of a file: a method is named by its type, where
    that is declared, and one of a trait by the type and the trait together."""
    functions = list(FUNCTION.finditer(before))
    if not functions:
        return None
    last = functions[-1]
    owner = IMPL.findall(before[: last.start()])[-1:] if last[1] else []
    if not owner:
        return "::".join([*module_of(file), last[2]])
    of_trait, kind = owner[0]
    return "::".join([*(home_of(crate, kind, file) or module_of(file)), kind + of_trait, last[2]])


def paths_of(crate, edit):
    """The paths of the functions that an edit changes."""
    return {path for file, text in fronts_of(crate, edit) if (path := path_of(crate, file, text))}


def is_inside(crate, edit):
    """Whether an edit changes functions of src/ alone, of which none is proved together with others."""
    for file, text in fronts_of(crate, edit):
        functions = list(FUNCTION.finditer(text))
        if not file.startswith("src/") or not functions:
            return False
        last = functions[-1]
        has_ended = re.search(rf"^{last[1]}}}$", text[last.start() :], re.MULTILINE)
        if has_ended or "#[cycle(" in text[: last.start()].rpartition("\n\n")[2]:
            return False
    return True


def parted(crate, edits):
    """Edits in groups, of which each changes a function once at most: such edits can be read together."""
    groups = []
    for edit in edits:
        places = places_of(crate, edit)
        group = next((it for it in groups if not it[0] & places), None)
        if group is None:
            groups.append(group := (set(), []))
        group[0].update(places)
        group[1].append(edit)
    return [it[1] for it in groups]


def said_with(crate, edits, *words):
    """What a check with these words says of a crate with these edits."""
    before = {}
    for file, old, new in (it for edit in edits for it in changes_of(crate, edit)):
        text = read_file(f"{crate}/{file}")
        before.setdefault(file, text)
        write_file(f"{crate}/{file}", text.replace(old, new, 1))
    said = rt(crate, "check", "--jobs", "1", *words)
    for file, text in before.items():
        write_file(f"{crate}/{file}", text)
    return said


def refusal_of(crate, edits):
    """What the compiler's front end says against a crate with these edits; nothing where it takes them."""
    said = said_with(crate, edits, "--only", "")
    told = FRONT_END.findall(said)[:3]
    # a check that was stopped, or that lacked a library, says nothing of the body
    return told if told or READ in said else ["it was not read: " + " ".join(said.splitlines()[-1:])]


def refused_among(crate, edits):
    """Those of these edits that the front end does not take, with what it says. They are read together, and where it says something each
    half alone."""
    said = refusal_of(crate, edits)
    if not said or len(edits) == 1:
        return [(edits[0], said)] if said else []
    half = len(edits) // 2
    return refused_among(crate, edits[:half]) + refused_among(crate, edits[half:])


def copied(room, name):
    """Copies the repository, with links to the libraries of this crate and of those below it that `rt ci` left in it: each crate's edits are
    read in a copy of their own, since the crates above one that has an edit would be read over it."""
    shutil.copytree(f"{harness.TOP}/crates", f"{room}/crates", ignore=shutil.ignore_patterns("out"))
    for name in [name, *crates_below(name)]:
        libraries = f"{harness.TOP}/crates/{name}/out/rlib"
        if os.path.isdir(libraries):
            shutil.copytree(libraries, f"{room}/crates/{name}/out/rlib", copy_function=linked)
    for name in ("crates.txt", "HANDLES"):
        shutil.copy(f"{harness.TOP}/{name}", room)


def copied_to(source, to):
    """Copies a file, or links it where it is one that checks keep: they replace such files, and change none."""
    (linked if "/out/" in source else shutil.copy2)(source, to)


def linked(source, to):
    try:
        os.link(source, to)
    except OSError:
        shutil.copy2(source, to)


def read_edits(name):
    """Has the front end read the edits of a crate: its checksum, and how many it takes and how many not."""
    with tempfile.TemporaryDirectory(prefix="edits-") as room:
        copied(room, name)
        told = checksum(room, name, READ_OF)
        return told, *read_edits_in(f"{room}/crates/{name}", name)


def read_edits_in(crate, name):
    take_edits(crate, "edits")
    edits = edits_in(f"{crate}/must-fail")
    refused = [it for group in parted(crate, edits) for it in refused_among(crate, group)]
    for edit, said in refused:
        print(*[f"BAD EDIT crates/{name}/edits/{edit}: {it}" for it in said], sep="\n", flush=True)
    return len(edits) - len(refused), len(refused)


def read_changed(crates):
    """Has the front end read the edits of those crates that changed since: how many it takes and how many not."""
    changed = [it for it in crates if edits_in(f"{harness.TOP}/crates/{it}/edits") and not is_told(SEEN, it, READ_OF)]
    with ThreadPoolExecutor(int(os.environ.get("RT_JOBS") or harness.processes())) as pool:
        came = dict(zip(changed, pool.map(read_edits, changed)))
    record(SEEN, {name: ([told], []) for name, (told, _, failed) in came.items() if not failed})
    return tuple(map(sum, zip((0, 0), *(it[1:] for it in came.values()))))


def tell_old(crates):
    """Names the crates whose wrong bodies were not all tried as they stand here."""
    old = [it for it in crates if edits_in(f"{harness.TOP}/crates/{it}/edits") and not is_told(REFUSED_AT, it, TRIED_OF)]
    print(f"edits.refused is not of this tree for {len(old)} crates, which make edits tries: {' '.join(old) or 'none'}", flush=True)


def attempt_all(room, every, crates):
    """Tries the edits of these crates, RT_JOBS crates side by side."""
    jobs = int(os.environ.get("RT_JOBS") or harness.processes())
    if jobs > 1:
        # so that no two of them build one library at the same time
        for name in every:
            if os.path.isfile(f"{room}/crates/{name}/src/lib.rt"):
                rt(f"{room}/crates/{name}", "lib", "--jobs", "1")
    with ThreadPoolExecutor(jobs) as pool:
        return list(pool.map(lambda it: attempt(room, it), crates))


def try_all(room, every, crates):
    """Tries the edits of these crates, and writes down those of which all were refused: how many were, and how many were not."""
    sums = {name: (checksum(room, name, TRIED_OF), checksum(room, name, READ_OF)) for name in crates}
    bad = apply(room, crates, FOLDERS[0])[1]
    day, came = datetime.date.today().isoformat(), dict(zip(crates, attempt_all(room, every, crates)))
    for name, (count, refused) in came.items():
        is_whole = count == len(edits_in(f"{harness.TOP}/crates/{name}/edits")) and all(refused.values())
        if count and is_whole and count == len(refused):
            lines = [f"  {edit.removesuffix('.edit')} {goal}" for edit, goal in sorted(refused.items())]
            record(REFUSED_AT, {name: ([sums[name][0], day], lines)})
            record(SEEN, {name: ([sums[name][1]], [])})
        print(*(f"{name}/{edit}: refused, but at no goal" for edit, goal in refused.items() if not goal), sep="\n", end="")
    print(f"\nBAD EDIT: {bad} can't be applied, as told at the start" if bad else "")
    return sum(len(it) for _, it in came.values()), bad + sum(count - len(it) for count, it in came.values())


def main(words):
    only_apply = words == ["--apply"]
    every = sorted(os.listdir(f"{harness.TOP}/crates"))
    crates = every if only_apply else words or [it for it in every if not is_told(REFUSED_AT, it, TRIED_OF)]
    unknown = [it for it in crates if it not in every]
    if unknown:
        sys.exit(f"there is no crate {unknown[0]}")
    with tempfile.TemporaryDirectory(prefix="edits-") as room:
        ignored = shutil.ignore_patterns("out") if only_apply else None
        shutil.copytree(f"{harness.TOP}/crates", f"{room}/crates", ignore=ignored, copy_function=copied_to)
        for name in ("crates.txt", "HANDLES"):
            shutil.copy(f"{harness.TOP}/{name}", room)
        if not only_apply:
            return harness.closing(*try_all(room, every, crates))
        counted = [apply(room, crates, it) for it in FOLDERS]
    tell_old(crates)
    return harness.closing(*map(sum, zip(*counted, read_changed(crates))))


if __name__ == "__main__":
    sys.exit(main(sys.argv[1:]))
