"""Renders templates and data with small and large counts of each kind, and bounds memory and writes. The counts are of instructions,
members, operands, definitions, variables, FILEs, bytes of made texts. What each comes to is worked out here. Then counts the allocations of
some, the bytes that they ask for and the writes, at two sizes: twice as much may take little more than twice. Last comes what calls of
templates make a run ask for. TMPL=PATH names another build."""
import random
import struct
import sys
import tempfile

from tests.lib import harness

FEWER, MORE = 1000, 2000  # how many there are of what is counted, where memory and writes are
GROWTH = 2.5  # of what is taken from the one to the other
PIECE = 4096  # bytes that the command puts out together
LEAST = 144  # cases

MADE = '{{$x := print "%s"}}{{$y := $x}}{{with $x}}{{.}}|{{len .}}|{{slice . %d}}{{end}}|{{$y}}|{{template "t" $x}}{{$x = print $y}}{{$x}};'


def body(count):
    """A control around this many actions, and one of them where the data is empty: a jump over all of their code."""
    template = "{{if .}}" + "x{{.}}" * count + "{{else}}no{{end}}!"
    yield {"m": template, "d": "7"}, "x7" * count + "!"
    yield {"m": template, "d": "0"}, "no!"
    template = "{{range .}}{{if eq . 2}}{{break}}{{else if eq . 1}}{{continue}}{{end}}" + "{{.}}," * count + "{{else}}none{{end}}!"
    yield {"m": template, "d": "[5,1,6,2,8]"}, "5," * count + "6," * count + "!"


def members(count):
    """An object of this many members, in an order of its own, some of which stand there twice."""
    keys = [f"k{number}" for number in range(count)]
    its = [(key, number) for number, key in enumerate(keys)]
    random.Random(count).shuffle(its)
    its = [(key, -1) for key in keys[::7]] + its
    data = "{" + ",".join(f'"{key}":{number}' for key, number in its) + "}"
    template = "{{len .}}{{range $k, $v := .}};{{$k}}={{$v}}{{end}}"
    held = dict(its)
    yield {"m": template, "d": data}, f"{count}" + "".join(f";{key}={held[key]}" for key in sorted(held, key=str.encode))
    asked = [f"k{number}" for number in range(-1, count + 1, max(1, count // 300))]
    wanted = "".join(f"{held.get(key, '<no value>')}," for key in asked)
    yield {"m": "".join('{{index . "%s"}},' % key for key in asked), "d": data}, wanted
    yield {"m": "".join("{{.%s}}," % key for key in asked if "-" not in key), "d": data}, wanted.partition(",")[2]


def operands(count):
    numbers = [str(number) for number in range(1, count + 1)]
    yield {"m": "{{print %s}}" % " ".join(numbers)}, " ".join(numbers)
    yield {"m": "{{print %s}}" % " ".join(f'"{it}"' for it in numbers)}, "".join(numbers)
    yield {"m": "{{println %s}}" % " ".join(f'"{it}"' for it in numbers)}, " ".join(numbers) + "\n"
    yield {"m": '{{printf "%s" %s}}' % ("%d," * count, " ".join(numbers))}, "".join(f"{it}," for it in numbers)
    yield {"m": "{{or %s 5}}{{and %s 7}}" % ("0 " * count, "1 " * count)}, "57"
    yield {"m": "{{eq 0 %s}}{{eq 0 %s 0}}" % (" ".join(numbers), " ".join(numbers))}, "falsetrue"


def definitions(count):
    """Templates that hold their number, and calls of them in another order."""
    order = list(range(count))
    random.Random(count).shuffle(order)
    template = "".join('{{define "t%d"}}%d{{.}};{{end}}' % (it, it) for it in range(count))
    calls = "".join('{{template "t%d" %d}}' % (it, it % 10) for it in order)
    yield {"m": template + calls}, "".join(f"{it}{it % 10};" for it in order)


def variables(count):
    """Variables that are all in scope where another is declared, and in controls and a call inside of each other."""
    declared = "".join("{{$v%d := %d}}" % (it, it) for it in range(count))
    template = declared + "{{with $w := 5}}{{range $i, $e := $}}{{$x := $i}}{{$x}}{{$e}}{{$w}}{{end}}{{end}}"
    shown = "".join("{{$v%d}}," % it for it in range(count))
    yield {"m": template + shown, "d": "[8,9]"}, "085195" + "".join(f"{it}," for it in range(count))
    deep = min(count, 400)
    template = "".join("{{with $v%d := %d}}" % (it, it + 1) for it in range(deep))
    shown = "{{$n := 0}}{{$n}}" + "".join("{{$v%d}}," % it for it in range(deep)) + "{{.}}"
    yield {"m": template + shown + "{{end}}" * deep}, "0" + "".join(f"{it + 1}," for it in range(deep)) + str(deep)


def files(count):
    """FILEs, each with its own template and one that it defines; the first calls all."""
    first = "".join('{{template "f%d"}}{{template "d%d"}}' % (it, it) for it in range(1, count))
    held = {f"f{it}": '{{define "d%d"}}<%d>{{end}}%d' % (it, it, it) for it in range(1, count)}
    yield {"f0": f"{first}!", **held}, "".join(f"{it}<{it}>" for it in range(1, count)) + "!"


def made(lengths):
    """Made texts of these lengths, that are kept, shared, made dot, handed to a template and made anew."""
    template, wanted = '{{define "t"}}{{.}}{{end}}', ""
    for length in lengths:
        text = "".join(chr(ord("a") + (length + it) % 26) for it in range(length))
        cut = length // 2
        template += MADE % (text, cut)
        wanted += (f"{text}|{length}|{text[cut:]}" if text else "") + f"|{text}|{text}{text};"
    yield {"m": template}, wanted


def cases():
    """The name of each case, its files and its output."""
    for kind, counts in (
        (body, (1, 100, 16384, 20000)),
        (members, (0, 1, 2, 15, 16, 17, 33, 300, 100000)),
        (operands, (1, 2, 16, 17, 300, 301, 10000)),
        (definitions, (1, 16, 17, 601, 10000)),
        (variables, (1, 16, 255, 256, 300, 1000)),
        (files, (1, 2, 40, 41, 1001)),
    ):
        for count in counts:
            yield from ((f"{kind.__name__} of {count}", *case) for case in kind(count))
    yield from ((f"made texts of {its}", *case) for its in (range(601), [5000], [70000]) for case in made(its))


def words_of(held, options=()):
    names = [name.encode() for name in held if name != "d"]
    return [*(it.encode() for it in options), *([b"--data", b"d"] if "d" in held else []), b"--", *names]


def judge(runner, name, held, wanted):
    runner.empty()
    for file, what in held.items():
        runner.lay(file.encode(), what.encode())
    got = runner.run(words_of(held))
    return name, 1, [] if got == (0, wanted.encode(), b"") else [f"    it came to {got[0]}, {harness.short(got[1])}, {got[2]!r}",
                                                                 f"    wanted {harness.short(wanted.encode())}"]


# ---- what is taken


def taken(shim, runner, held, options=()):
    """The allocations, the bytes that they ask for and the writes of a run, and the bytes of its output."""
    runner.empty()
    for file, what in held.items():
        runner.lay(file.encode(), what.encode())
    more = {**harness.ENVIRONMENT, "LD_PRELOAD": shim, "COUNT_FD": str(runner.told)}
    status, out, errors = runner.run_by(b"tmpl", words_of(held, options), runner.actions, more)
    if status or errors:
        raise RuntimeError(f"a run that is counted came to {status}, {errors!r}")
    return [*struct.unpack("3l", harness.taken_from(runner.told)), len(out)]


def judge_growth(shim, runner, kind, place):
    """Whether twice as much takes little more than twice the allocations and bytes, and each piece of output but the last is whole."""
    none, fewer, more = (taken(shim, runner, list(kind(count))[place][0]) for count in (1, FEWER, MORE))
    wrong = []
    for what, least, one, two in zip(("allocations", "bytes asked for"), none, fewer, more):
        # what grows by doubling may grow once more
        if two - least > GROWTH * (one - least) + 64 * (what == "allocations"):
            wrong.append(f"    {one - least} and {two - least} {what}, of {FEWER} and of {MORE}")
    if not more[2] <= more[3] // PIECE + 2:
        wrong.append(f"    {more[2]} writes for {more[3]} bytes")
    return f"what {kind.__name__} take, number {place}", 3, wrong


# ---- what the stack of a run takes

CHAIN = 20000  # templates, each of which calls the next
DEEPEST = ["--depth", "100000"]
LITTLE = 4096  # bytes
MUCH = 1 << 20


def stacks():
    """Templates with their options, others or none with theirs, and how many bytes the first may ask for beyond the others."""
    big = "{{print %s}}" % ("1 " * 50000)
    small = '{{define "t"}}x{{end}}'
    yield "a big template that calls a small one", [], big + small + '{{template "t"}}', [], big + small, LITTLE
    inner = '{{define "a"}}{{template "b"}}{{end}}{{define "b"}}%s{{end}}' % big
    apart = '{{define "a"}}{{end}}{{define "b"}}{{end}}' + big
    yield "a chain of three with a big one", [], inner + '{{template "a"}}', [], apart, LITTLE
    again = '{{define "t"}}{{if .}}{{template "t" (slice . 1)}}{{end}}{{end}}{{template "t" "%s"}}' % ("x" * 998)
    yield "a small template that calls itself, a thousand deep", [], again, None, None, MUCH
    yield "a big template that calls one that calls itself", [], big + again, [], big + small, MUCH
    pair = again.replace('{{template "t" (slice', '{{template "u" (slice') + '{{define "u"}}{{template "t" .}}{{end}}'
    pair = pair.replace("{{end}}", '{{else}}{{template "v"}}{{end}}', 1)
    last = '{{define "v"}}%s{{end}}' % big
    yield "two that call each other and a big one that they call", ["--depth", "2000"], pair + last, [], last + '{{template "v"}}', MUCH
    lone = '{{define "t"}}{{if .}}{{template "t" .}}{{end}}{{end}}x'
    yield "a template beside one that calls itself, which it does not call", DEEPEST, lone, [], small + "x", LITTLE
    apart = '{{define "b"}}%s{{end}}x' % big
    yield "a template beside a big one, which it does not call", [], apart, [], big, 0
    chain = "".join('{{define "t%d"}}{{template "t%d"}}{{end}}' % (it, it + 1) for it in range(CHAIN - 1))
    chain += '{{define "t%d"}}x{{end}}{{template "t0"}}' % (CHAIN - 1)
    yield f"a chain of {CHAIN}, at the greatest depth and at its own", DEEPEST, chain, ["--depth", str(CHAIN + 1)], chain, 0


def judge_stack(shim, runner, name, options, template, others, other, most):
    least = taken(shim, runner, {"m": other}, others)[1] if other else 0
    more = taken(shim, runner, {"m": template}, options)[1] - least
    return name, 2, [f"    {more} bytes more are asked for, of at most {most}"] if more > most else []


GROWTHS = [(body, 0), (body, 1), (members, 0), (members, 1), *[(operands, it) for it in range(6)], (definitions, 0), (variables, 0), (files, 0)]


def long_text(count):
    """A text that is put out in parts."""
    yield {"m": "{{range .}}ab{{end}}", "d": str(100 * count)}, "ab" * 100 * count


def main():
    if not harness.is_built():
        return harness.closing(0, 1)
    runner = harness.Runner()
    with tempfile.TemporaryDirectory() as folder:
        shim = f"{folder}/count.so"
        harness.build_shim("count.c", shim)
        its = [judge(runner, *case) for case in cases()]
        its += [judge_growth(shim, runner, *it) for it in (*GROWTHS, (long_text, 0))]
        its += [judge_stack(shim, runner, *it) for it in stacks()]
    passed, failed, runs = harness.tally(its)
    failed += harness.too_few("templates were rendered or counted", runs, LEAST)
    return harness.closing(passed, failed)


if __name__ == "__main__":
    sys.exit(main())
