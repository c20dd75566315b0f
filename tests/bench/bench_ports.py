"""Times what `make static`, `make aarch64` and `make web` build, and tells how large it is, in a table of its own in docs/SPEED.md:
`bench_ports.py [--dry]`, as bench.py. Go's own template engine is compiled to WebAssembly too (GOOS=js) and run in Node beside ours, and so
is Handlebars, an engine in JavaScript, where Debian's package is there."""
import gzip
import json
import os
import shutil
import statistics
import subprocess
import sys
import tempfile

from tests.bench import bench
from tests.go import compare
from tests.lib import harness

PORTS = f"{harness.TOP}/packaging/out"
BEGIN, END = "<!-- made by `make bench`, ports: begin -->\n", "<!-- made by `make bench`, ports: end -->\n"
HANDLEBARS = "/usr/share/nodejs/handlebars"
HELLO = b"Hello, {{.user.name}}!\n"
# The templates of bench.renders that are timed in Node, in Handlebars' own language.
OTHERS = {
    "`examples/hello`": b"Hello, {{user.name}}!\n",
    "a table of 20,000 rows": b"{{#each this}}<tr><td>{{id}}</td><td>{{{name}}}</td><td>{{#if ok}}yes{{else}}no{{/if}}</td></tr>\n{{/each}}",
}


def size(path):
    return f"{os.path.getsize(path) / 1e3:,.0f} kB"


def packed(path):
    with open(path, "rb") as it:
        return f"{len(gzip.compress(it.read(), 9)) / 1e3:,.0f} kB"


def bench_sizes(figures):
    figures.part("Sizes, and packed by gzip")
    names = {
        "the program of `make`, stripped": None, "the static program": "static/tmpl", "the program for aarch64": "aarch64/tmpl",
        "the C library for aarch64, `libtmpl.so`": "aarch64/libtmpl.so", "the module of WebAssembly": "web/tmpl.wasm",
        "the page": "web/tmpl.html",
    }
    with tempfile.TemporaryDirectory() as folder:
        for what, name in names.items():
            path = f"{PORTS}/{name}"
            if name is None:
                path = f"{folder}/tmpl"
                subprocess.run(["strip", "-o", path, harness.PROGRAM], check=True)
            if os.path.exists(path):
                figures.row(what, f"{size(path)}, {packed(path)}")


def bench_static(figures, folder):
    """The static program beside Go, and beside the one that `make` builds."""
    go, static = bench.go_renderer(folder), f"{PORTS}/static/tmpl"
    figures.part("The static program, by whole processes" + (f", beside {bench.go_name()}" if go else ""))
    data = bench.write(f"{folder}/user", [b'{"user":{"name":"Ada"},"n":7}'])
    cases = [("`examples/hello`", [HELLO], 0.3), ("100 definitions and a call of each", bench.definitions(100), 0.4)]
    for what, pieces, most in cases:
        file = bench.write(f"{folder}/template", pieces)
        runs = [[static, "--data", data, file], [harness.PROGRAM, "--data", data, file], *([[go, "render", file, data]] if go else [])]
        ours, linked, *theirs = bench.medians(101, *runs)
        beside = [f"the program of `make` {bench.shown(linked[0])}", *(f"Go {bench.with_memory(it)}" for it in theirs)]
        figures.row(what, bench.with_memory(ours), "; ".join(beside), ours[0] / theirs[0][0] if theirs else None, None, most)
    if go:
        times = [time_beside(go, static, folder, pieces, held) for _, pieces, held, *_ in bench.renders(folder)]
        figures.row("the geometric mean over the whole processes of the table above", "", "", statistics.geometric_mean(times), None, 0.28)


def time_beside(go, static, folder, pieces, held):
    """The static program's time of a render over Go's."""
    file = bench.write(f"{folder}/template", pieces)
    ours, theirs = bench.medians(15, [static, "--data", held, file], [go, "render", file, held])
    return ours[0] / theirs[0]


def go_module(folder):
    """Go's engine as a module of WebAssembly, and what runs it in Node; none where Go is not there."""
    go = compare.newest_go()
    if not shutil.which(go):
        return None, None
    root = subprocess.run([go, "env", "GOROOT"], stdout=subprocess.PIPE, check=True, text=True).stdout.strip()
    places = (f"{root}/{it}/wasm/wasm_exec_node.js" for it in ("lib", "misc"))  # of newer and of older ones
    runner = next(filter(os.path.exists, places))
    module = f"{folder}/go.wasm"
    environment = {**os.environ, "GOOS": "js", "GOARCH": "wasm", "GO111MODULE": "off"}
    subprocess.run([go, "build", "-ldflags=-s -w", "-o", module, f"{harness.TESTS}/go/main.go"], env=environment, check=True)
    return module, ["node", runner, module]


def staged(folder):
    """The binding with its module."""
    at = f"{folder}/binding"
    shutil.copytree(f"{harness.TOP}/bindings/javascript", at)
    shutil.copy(f"{PORTS}/web/tmpl.wasm", at)
    return at


def bench_first(figures, folder, ours, go):
    """The first text, by whole processes of Node, less what Node itself takes to start."""
    node = shutil.which("node")
    template, data = bench.write(f"{folder}/template", [HELLO]), bench.write(f"{folder}/user", [b'{"user":{"name":"Ada"}}'])
    other = bench.write(f"{folder}/other", [OTHERS["`examples/hello`"]])
    empty = bench.write(f"{folder}/empty.mjs", [b""])
    speed = [node, f"{harness.TESTS}/web/speed.mjs"]
    runs = {"node": [node, empty], "tmpl": [*speed, ours, template, data, "0"]}
    if os.path.isdir(HANDLEBARS):
        runs["Handlebars"] = [*speed, "handlebars", other, data, "0"]
    if go:
        runs["Go"] = [node, *go[1:], "render", template, data]
    told = dict(zip(runs, (it[0] for it in bench.medians(21, *runs.values()))))
    spent = {who: told[who] - told["node"] for who in told if who != "node"}
    beside = "; ".join(f"{who} {bench.shown(it)}" for who, it in spent.items() if who != "tmpl")
    figures.row("the first `examples/hello`, with the module compiled", bench.shown(spent["tmpl"]), beside, spent["tmpl"] / spent["Go"] if go else None)


def bench_web(figures, folder):
    module, go = go_module(folder)
    ours, speed = staged(folder), f"{folder}/speed"
    library = f"{harness.TOP}/bindings/out/libtmpl.a"
    subprocess.run(["cc", "-O2", f"-I{harness.TOP}/bindings/c", f"{harness.TESTS}/bench/speed.c", library, "-pthread", "-o", speed], check=True)
    version = subprocess.run(["node", "--version"], stdout=subprocess.PIPE, text=True, check=True).stdout.strip()[1:]
    figures.part(f"In Node {version}: the least, the median of 31 renders")
    if go:
        wasm = f"{ours}/tmpl.wasm"
        factor = os.path.getsize(wasm) / os.path.getsize(module)
        figures.row("the size of the module, and packed", f"{size(wasm)}, {packed(wasm)}", f"Go {size(module)}, {packed(module)}", None, factor)
    bench_first(figures, folder, ours, go)
    for name, pieces, held, *_ in bench.renders(folder):
        if name not in OTHERS:
            continue
        file, other = bench.write(f"{folder}/template", pieces), bench.write(f"{folder}/other", [OTHERS[name]])
        for how, kept in (("parsed and read each time", []), ("parsed and read once", ["kept"])):
            node = ["node", f"{harness.TESTS}/web/speed.mjs"]
            programs = {"tmpl": ([*node, ours, file, held], kept), "the library itself": ([speed, file, held], kept)}
            programs |= {"Go": ([*go, "times", file, held], kept)} if go else {}
            programs |= {"Handlebars": ([*node, "handlebars", other, held], kept)} if os.path.isdir(HANDLEBARS) else {}
            told = bench.turns(programs, 1000 if "hello" in name else 1)
            spelled = {who: f"{bench.shown(least / 1e9)}, {bench.shown(middle / 1e9)}" for who, (least, middle) in told.items()}
            beside = "; ".join(f"{who} {it}" for who, it in spelled.items() if who != "tmpl")
            figures.row(f"{name}, {how}", spelled["tmpl"], beside, told["tmpl"][1] / told["Go"][1] if go else None)


def peers(folder):
    found = [bench.go_name()] if bench.go_renderer(folder) else []
    if os.path.isdir(HANDLEBARS):
        with open(f"{HANDLEBARS}/package.json", encoding="utf-8") as it:
            found.append(f"Handlebars {json.load(it)['version']}")
    return ", ".join(found) or "none"


def main(words):
    targets = ["static", "web", "lib", *["aarch64"] * bool(shutil.which("aarch64-linux-gnu-gcc"))]
    subprocess.run(["make", "-s", "-C", harness.TOP, *targets], check=True)
    figures = bench.Figures()
    with tempfile.TemporaryDirectory() as folder:
        bench.PEAK = f"{folder}/peak"
        subprocess.run(["cc", "-O2", f"{harness.TESTS}/bench/peak.c", "-o", bench.PEAK], check=True)
        bench_sizes(figures)
        bench_static(figures, folder)
        if shutil.which("node"):
            bench_web(figures, folder)
        lines = [bench.head(peers(folder)), "", *bench.HEADINGS, *figures.rows]
    if "--dry" in words:
        print(*lines, sep="\n")
    else:
        bench.publish(lines, BEGIN, END)


if __name__ == "__main__":
    main(sys.argv[1:])
