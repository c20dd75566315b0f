"""Runs the program over every short list of actions, and compares each refusal with the rules stated a second time. They are stated by
stretches of the list, as docs/LANGUAGE.md has them, and share no code with the program. Each action stands on a line of its own. Then it
runs longer lists, whose lines were worked out by hand. `places.py N` goes up to lists of N actions, the longest of them of fewer kinds.
TMPL=PATH names another build."""
import itertools
import re
import sys

from tests.lib import harness

LEAST = 14000  # lists

PLACES = {
    "if": "{{if .}}",
    "with": "{{with .}}",
    "range": "{{range .}}",
    "else": "{{else}}",
    "else if": "{{else if .}}",
    "else with": "{{else with .}}",
    "end": "{{end}}",
    "break": "{{break}}",
    "continue": "{{continue}}",
}
# with the name of the file itself, so that each may be a second definition
TEMPLATES = {
    "if": "{{if .}}",
    "range": "{{range .}}",
    "else": "{{else}}",
    "end": "{{end}}",
    "break": "{{break}}",
    "define": '{{define "m"}}',
    "block": '{{block "m" .}}',
    "template": '{{template "m"}}',
}
NAMES = {
    "declare": "{{$x := .}}",
    "assign": "{{$x = .}}",
    "if": "{{if $x := .}}",
    "with": "{{with .}}",
    "range": "{{range $x, $y := .}}",
    "else": "{{else}}",
    "else if": "{{else if $y := $x}}",
    "end": "{{end}}",
    "block": '{{block "b" $x}}',
}
DECLARES = {
    "{{$x := .}}": ["x"],
    "{{if $x := .}}": ["x"],
    "{{range $x, $y := .}}": ["x", "y"],
    "{{else if $y := $x}}": ["y"],
}
USES = {"{{$x = .}}": ["x"], "{{else if $y := $x}}": ["x"], '{{block "b" $x}}': ["x"]}
CONTROLS = ("if", "with", "range")
DEFINITIONS = ("define", "block")
OPENINGS = CONTROLS + DEFINITIONS
BRANCHES = ("else", "else if", "else with")
# the control to which an else branch belongs
OF_CONTROL = {"else if": "if", "else with": "with"}
# In OUTER INNER else end else end one more action stands after each of the six in turn: the line that is then out of
# place, 0 where none is.
MORE = {
    "else": dict.fromkeys((f"{outer} {inner}" for outer in CONTROLS for inner in CONTROLS), "644667"),
    "end": dict.fromkeys((f"{outer} {inner}" for outer in CONTROLS for inner in CONTROLS), "666677"),
    "else if": {
        **{"if if": "004067", "if with": "034067", "if range": "034067"},
        **{"with if": "204567", "with with": "234567", "with range": "234567"},
        **{"range if": "204567", "range with": "234567", "range range": "234567"},
    },
    "break": {
        **{"if if": "234567", "if with": "234567", "if range": "204567"},
        **{"with if": "234567", "with with": "234567", "with range": "204567"},
        **{"range if": "000067", "range with": "000067", "range range": "000067"},
    },
}
MORE["continue"] = MORE["break"]
MORE["template"] = dict.fromkeys(MORE["else"], "000000")
# Lists of actions, as `action` spells them, and the line of the one that is out of place, 0 where none is.
DEEPER = [
    # a define where nothing is open
    *[("define if. end end define end", 0), ("if. define", 2), ("range. else define", 3), ("block. block. end define", 4)],
    *[("define end if. end block. end define end", 0), ("define block. end end end", 5), ("define if. end define", 4)],
    # an else of a define or block, and of the control around it
    *[("if. block. if. else end else end end", 6), ("if. block. end else end", 0), ("if. else block. end else end", 5)],
    *[("with. block. elsewith. end end", 3), ("with. block. end elsewith. block. end else end", 0), ("define elseif. end", 2)],
    # a break in a template of its own
    *[("range. block. range. break end break end end", 6), ("range. block. range. else break end end end", 5)],
    *[("range. block. end break end", 0), ("range. block. end else break end", 5), ("define range. break end end", 0)],
    *[("range. range. else block. range. break end end break end end", 0), ("range. block. if. continue end end end", 4)],
]
# Lists of actions, as `action` spells them, and the line of the variable that is not in scope, 0 where each is.
SCOPES = [
    # `$` alone is always there, and a name is there after the action that declares it
    *[("$", 0), ("if$ elseif$ end", 0), ("$x", 1), ("=x", 1), (":x $x =x", 0), ("$x :x", 1), (":x $y", 2)],
    *[(":xy $x", 2), (":x :x $x", 0)],
    # to the end of the file, also inside of controls
    *[(":x if$x . elseif$x . else $x end $x", 0), (":x range$x . else $x end with$x $x end", 0)],
    # one of a part, to the end of that part
    *[("if :x $x end $x", 5), ("if :x $x else $x end", 5), ("if :x elseif$x end", 3)],
    *[("if elseif :x $x else $x end", 6), ("if elseif :x elseif$x end", 4), ("if else :x $x end $x", 6)],
    *[("with :x $x else $x end", 5), ("range :x $x else $x end", 5), ("range :x break $x end $x", 6)],
    *[("if if :x end $x end", 5), ("if :x if $x end $x end", 0)],
    # one of the header of an `if` or `with`, in both parts, and not in its own pipeline
    *[("if:x $x else $x end", 0), ("if:x elseif$x $x else $x end", 0), ("with:x $x else $x end", 0)],
    *[("if:x end $x", 3), ("with:x end $x", 3), ("if=x end", 1), ("with=x end", 1), (":x if=x =x else =x end $x", 0)],
    # one of the header of an `else if`, in what is left of the control
    *[("if elseif:x $x elseif$x $x else $x end", 0), ("if $x elseif:x end", 2), ("if elseif:x end $x", 4)],
    # .. and of an `else with`
    *[("with elsewith:x $x elsewith$x $x else $x end", 0), ("with:x elsewith$x $x end", 0), ("with elsewith:x end $x", 4)],
    *[("with $x elsewith:x end", 2), ("with elsewith :x elsewith$x end", 4), ("with :x elsewith$x end", 3)],
    # those of a range, in its body alone
    *[("range:x $x end", 0), ("range:k,x $k $x end", 0), ("range:x else $x end", 3), ("range:k,x else $k end", 3)],
    *[("range:x end $x", 3), ("range:x range:y $x $y else $x end $x end", 0), ("range:x range:y else $y end end", 4)],
    # a name that is hidden comes back
    *[(":x if:x $x end $x", 0), (":x if :x else $x end $x", 0), ("if:x if:x end $x end", 0)],
    *[("if:x if :x else end $x end $x", 8)],
    # a template sees what it declares itself, and gives it to none
    *[(":x define $x end", 3), (":x block. $x end", 3), ("if:x block. $x end end", 3), ("range:x block. $x end end", 3)],
    *[("block. :x end $x", 4), ("define :x end $x", 4), ("define :x $x end define $x end", 6), (":x define =x end", 3)],
    *[(":x block. :x $x end $x", 0), (":x block. :x =x end =x", 0), ("block. :x block$x $x end end", 4)],
    *[("block. :x block$x end $x end $x", 7), ("define if:x block$x end $x end end $x", 8)],
    # the header of a block is of the template around it
    *[(":x block$x end $x", 0), ("block$x end", 1), ("if:x block$x :y $x end $x end", 4), ("range:x else block$x end end", 3)],
    *[("if:x block$x end else block$x end $x end $x", 9), (":x range:y block$y :z $z end $x $y end $y", 10)],
    # the pipeline of a call
    *[(":x template$x", 0), ("template$x :x", 1), (":x define template$x end", 3), (":x define end template$x", 0)],
]


def is_open(kinds, j, i):
    """The opening at j is open at a later i if no front of the stretch strictly between has more ends than openings."""
    between = kinds[j + 1 : i]
    fronts = (between[:n] for n in range(len(between) + 1))
    ended = any(front.count("end") > sum(it in OPENINGS for it in front) for front in fronts)
    return kinds[j] in OPENINGS and not ended


def last_open(kinds, i):
    """The last opening that is open at i."""
    return max((j for j in range(i) if is_open(kinds, j, i)), default=None)


def branches(kinds, j, words, after, to):
    """The places of those words that belong to the opening at j, after one place and before another."""
    return [k for k in range(after + 1, to) if kinds[k] in words and last_open(kinds, k) == j]


def template_of(kinds, i):
    """The define or block in whose template the action at i stands, or none for that of the file."""
    return max((j for j in range(i) if kinds[j] in DEFINITIONS and is_open(kinds, j, i)), default=None)


def is_misplaced(kinds, i):
    opening = last_open(kinds, i)
    if kinds[i] == "end":
        return opening is None
    if kinds[i] == "define":
        return opening is not None
    if kinds[i] in BRANCHES:
        if opening is None or kinds[opening] in DEFINITIONS or branches(kinds, opening, ["else"], opening, i):
            return True
        return kinds[i] != "else" and kinds[opening] != OF_CONTROL[kinds[i]]
    if kinds[i] in ("break", "continue"):
        ranges = [j for j in range(i) if kinds[j] == "range" and is_open(kinds, j, i)]
        own = [j for j in ranges if template_of(kinds, j) == template_of(kinds, i)]
        return all(branches(kinds, j, ["else"], j, i) for j in own)
    return False


def reaches(kinds, k, i):
    """Whether what the action at k declares is in scope at a later i."""
    if kinds[k] in OPENINGS:
        return is_open(kinds, k, i) and not (kinds[k] == "range" and branches(kinds, k, ["else"], k, i))
    opening = last_open(kinds, k)
    if kinds[k] in OF_CONTROL:
        return is_open(kinds, opening, i)
    return opening is None or is_open(kinds, opening, i) and not branches(kinds, opening, BRANCHES, k, i + 1)


def is_undeclared(kinds, actions, i):
    before = [k for k in range(i) if template_of(kinds, k) == template_of(kinds, i) and reaches(kinds, k, i)]
    scope = {name for k in before for name in DECLARES.get(actions[k], [])}
    return any(name not in scope for name in USES.get(actions[i], []))


def is_blank(kinds, definition):
    """Whether a template has no action. The texts between two actions are newlines."""
    own = (kinds[i] for i in range(len(kinds)) if template_of(kinds, i) == definition)
    return all(kind in BRANCHES or kind in ("end", "define") for kind in own)


def second_definition(kinds, actions):
    """The line of the first definition that has an earlier one of its name, neither being blank. The file's own is the last."""
    names = {"m": [None]}
    for j in reversed(range(len(kinds))):
        if kinds[j] in DEFINITIONS:
            names.setdefault(actions[j].split('"')[1], []).insert(0, j)
    lasting = ([j for j in of_name if not is_blank(kinds, j)] for of_name in names.values())
    later = [j for of_name in lasting for j in of_name[1:]]
    headers = [j for j in later if j is not None]
    return min(headers) + 1 if headers else 1 if later else None


def refusal(kinds, actions):
    """The line and the reason of the refusal, if there is one."""
    for i in range(len(kinds)):
        if is_misplaced(kinds, i):
            return i + 1, "out of place"
        if is_undeclared(kinds, actions, i):
            return i + 1, "undeclared variable"
    if last_open(kinds, len(kinds)) is not None:
        return len(kinds) + 1, "file ends inside a control"
    line = second_definition(kinds, actions)
    return (line, "second definition") if line else None


def lists(table, length):
    """Every list of this many actions, and its refusal."""
    for kinds in itertools.product(table, repeat=length):
        actions = [table[kind] for kind in kinds]
        yield actions, refusal(kinds, actions)


def without(table, kind):
    return {name: action for name, action in table.items() if name != kind}


def all_lists(most):
    """Every list of up to this many actions. The longest leave out a continue, which is as a break, a template, which may stand
    anywhere, and where names are looked at a with, which declares none. Second definitions take lists of one action more."""
    for length in range(1, most):
        yield from lists({**PLACES, **TEMPLATES}, length)
        yield from lists(NAMES, length)
    yield from lists(without(PLACES, "continue"), most)
    yield from lists(without(TEMPLATES, "template"), most)
    yield from lists(without(NAMES, "with"), most)
    for length in range(most, most + 2):
        yield from lists({kind: TEMPLATES[kind] for kind in ("define", "block", "template", "end")}, length)


def with_more():
    """Two controls, with an action more at each place."""
    for more, table in MORE.items():
        for openings, lines in table.items():
            kinds = [*openings.split(), "else", "end", "else", "end"]
            for place, line in enumerate(map(int, lines), 1):
                actions = [{**PLACES, **TEMPLATES}[kind] for kind in (*kinds[:place], more, *kinds[place:])]
                yield actions, (line, "out of place") if line else None


def action(word, place):
    """The action of a word: its keyword, or none or a dot where it is a pipeline, and after that `:x` or `:k,x`, which
    declares, `=x`, which assigns, or `$x`, which uses. Each template has a name of its own, by its place."""
    keyword, sign, names = re.fullmatch("([a-z]*)[.]?([:=$]?)(.*)", word).groups()
    if keyword in ("else", "end", "break", "continue"):
        return f"{{{{{keyword}}}}}"
    if keyword == "define":
        return f'{{{{define "t{place}"}}}}'
    names = ", ".join(f"${name}" for name in names.split(","))
    pipeline = {"": ".", ":": f"{names} := .", "=": f"{names} = .", "$": names}[sign]
    spelled = re.sub("^else(if|with)", r"else \1", keyword)
    if keyword in ("block", "template"):
        spelled += f' "t{place}"'
    return f"{{{{{spelled} {pipeline}}}}}"


def by_hand(table, reason):
    """The lists of a table, each refused for this reason at its line, if it has one."""
    for words, line in table:
        yield [action(word, place) for place, word in enumerate(words.split())], (line, reason) if line else None


def check(case):
    """What the program says of a list of actions, and what it should say, where they differ."""
    actions, found = case
    # a template that calls itself is read alone
    words = [b"--name", b"null", b"m", b"/dev/null"] if any('"' in it for it in actions) else [b"m"]
    want = (4, f"tmpl: m:{found[0]}: {found[1]}\n") if found else (0, "")
    RUNNER.lay(b"m", "".join(f"{action}\n" for action in actions).encode())
    status, _, errors = RUNNER.run(words)
    got = status, errors.decode(errors="replace")
    return None if got == want else f"FAILED {' '.join(actions)}\n    wanted {want}\n    got {got}"


def start():
    global RUNNER
    RUNNER = harness.Runner()


def main(most):
    if not harness.is_built():
        return harness.closing(0, 1)
    cases = [*all_lists(most), *with_more(), *by_hand(DEEPER, "out of place"), *by_hand(SCOPES, "undeclared variable")]
    wrong = [it for it in harness.in_processes(check, cases, start, 200) if it]
    print(*wrong[:20], sep="\n", end="\n" * bool(wrong))
    failed = len(wrong) + harness.too_few("lists of actions were run", len(cases), LEAST)
    return harness.closing(len(cases) - len(wrong), failed)


if __name__ == "__main__":
    sys.exit(main(int(sys.argv[1]) if len(sys.argv) > 1 else 4))
