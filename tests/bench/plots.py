"""Draws the plots of docs/SPEED.md from its table, as docs/speed-factors.svg, docs/speed-engines.svg and, where the table has the rows of
growing work, docs/speed-growth.svg, and writes the sentences over them.

    plots.py [--check]

It needs matplotlib (`apt-get install python3-matplotlib`), and says so where that is missing. `--check` draws nothing: it fails where the
sentences are not those of the table, or where README has another factor of the time."""
import re
import sys

from tests.bench import bench
from tests.lib import harness, programs

BEGIN, END = "<!-- made by `make bench`, plots: begin -->\n", "<!-- made by `make bench`, plots: end -->\n"
FACTORS, ENGINES, GROWTH = "speed-factors.svg", "speed-engines.svg", "speed-growth.svg"
SECONDS = {"s": 1, "ms": 1e-3, "µs": 1e-6, "ns": 1e-9}
TIME = re.compile(r"([\d.]+) (ms|µs|ns|s)\b")
OURS, THEIRS = "#b3541e", "#4f6d8f"
WIDE = {"font.family": "sans-serif", "font.size": 9, "svg.fonttype": "none", "svg.hashsalt": "speed", "axes.spines.top": False, "axes.spines.right": False}


def read():
    """The rows of the table by the heading over them: their cells."""
    with open(bench.PAGE, encoding="utf-8") as it:
        text = it.read().partition(bench.BEGIN)[2].partition(bench.END)[0]
    parts, rows = {}, None
    for line in text.splitlines():
        cells = [it.strip() for it in line.strip("|").split("|")]
        if cells[0].startswith("**"):
            rows = parts.setdefault(cells[0].strip("*").partition(",")[0], [])
        elif rows is not None:
            rows.append(cells)
    return parts


def renders(parts):
    """Of each whole process beside Go: its name, the factors of time and memory, and the memory of both in MiB."""
    found = []
    for what, ours, theirs, time, memory, _ in parts["Whole processes"]:
        if time and memory:
            found.append((what.replace("`", ""), float(time), float(memory), *(int(re.search(r"(\d+) MiB", it)[1]) for it in (ours, theirs))))
    return found


def engines(parts):
    """Of each workload that is parsed and read once: its name, and the median seconds of each engine."""
    found = []
    for what, ours, theirs, *_ in parts["The C library"]:
        if what.endswith("parsed and read once"):
            told = {"tmpl": ours, **{it.split()[0]: it for it in theirs.split("; ")}}
            medians = {name: TIME.findall(said)[1] for name, said in told.items()}
            found.append((what.partition(", parsed")[0].replace("`", ""), {name: float(it) * SECONDS[unit] for name, (it, unit) in medians.items()}))
    return found


def within(parts):
    """Of each render in one process beside Go: its name, and the factor of time."""
    rows = parts["The C library"]
    return [(f"library: {what}".replace("`", ""), float(time)) for what, _, theirs, time, *_ in rows if theirs.startswith("Go ") and time]


def growth(parts):
    """Of each engine the rows of a table, and the seconds and MiB that a process takes to render it; nothing where the table has no such rows."""
    found = {}
    for what, ours, theirs, *_ in parts.get("As the work grows", []):
        for who, said in [("tmpl", ours), *(it.split(" ", 1) for it in theirs.split("; "))]:
            (number, unit), memory = TIME.search(said).groups(), re.search(r"(\d+) MiB", said)[1]
            found.setdefault(who, []).append((int(what.partition(" ")[0].replace(",", "")), float(number) * SECONDS[unit], int(memory)))
    return found


def mean_of(parts):
    """The geometric mean of the factors of time, as the table has it."""
    return next(cells[3] for cells in parts["Whole processes"] if cells[0].startswith("the geometric mean"))


def sentence(parts):
    rows, mean = renders(parts), mean_of(parts)
    factors = [it[2] for it in rows]
    above = sum(it > 1 for it in factors)
    return [
        f"Over {len(rows)} workloads a process of `tmpl` takes {mean} of the time of Go's, by the geometric mean, and {min(factors):.2f} to",
        f"{max(factors):.2f} of its memory, more than Go's in {above} of them:",
        "",
        f"![Dots for each of {len(rows)} workloads: time and memory of a process of tmpl, divided by those of Go; and the time in one process]({FACTORS})",
        "",
        "One process that renders what it has parsed, beside other engines; and the memory of whole processes, as the work grows:",
        "",
        f"![Bars: the time of a render by each engine, of a small template and of a large table. Dots: memory of tmpl and of Go]({ENGINES})",
        *bool(growth(parts)) * (
            "",
            "A process that renders a table of more and more rows:",
            "",
            f"![Lines for each engine: time and memory of a process, by the rows of its table]({GROWTH})",
        ),
    ]


def draw_factors(pyplot, parts):
    rows, inside = renders(parts)[::-1], within(parts)[::-1]
    figure, axes = pyplot.subplots(figsize=(7.6, 5.6))
    under, places = range(len(inside)), range(len(inside) + 1, len(inside) + 1 + len(rows))
    axes.axvline(1, color="#888888", linewidth=0.8)
    axes.axhline(len(inside), color="#888888", linewidth=0.8, linestyle=":")
    axes.hlines(places, [min(it[1:3]) for it in rows], [max(it[1:3]) for it in rows], color="#dddddd", zorder=1)
    axes.scatter([it[1] for it in (*inside, *rows)], [*under, *places], color=OURS, label="time", zorder=2)
    axes.scatter([it[2] for it in rows], places, facecolors="white", edgecolors=THEIRS, label="memory", zorder=2)
    axes.set_yticks([*under, *places], [it[0] for it in (*inside, *rows)])
    axes.set_xlim(0, max(1.6, *(it[2] + 0.1 for it in rows)))
    axes.set_xlabel("divided by Go's; less is better")
    axes.legend(frameon=False, loc="lower right")
    return figure


def draw_engines(pyplot, parts):
    figure, panels = pyplot.subplots(1, 3, figsize=(9.6, 3.2), gridspec_kw={"width_ratios": [1, 1, 1.3]})
    for axes, (what, medians) in zip(panels, engines(parts)):
        names = sorted(medians, key=medians.get, reverse=True)
        bars = axes.barh(names, [medians[it] for it in names], color=[OURS if it == "tmpl" else THEIRS for it in names])
        axes.bar_label(bars, [bench.shown(medians[it]) for it in names], padding=3)
        axes.set_title(f"a render of {what}", fontsize=9)
        axes.set_xlim(0, max(medians.values()) * 1.45)
        axes.set_xticks([])
        axes.spines["bottom"].set_visible(False)
    rows = sorted(renders(parts), key=lambda it: it[4])
    places = range(len(rows))
    panels[2].plot(places, [it[4] for it in rows], "o", color=THEIRS, label="Go")
    panels[2].plot(places, [it[3] for it in rows], "o", color=OURS, label="tmpl")
    panels[2].set_yscale("log")
    panels[2].minorticks_off()
    panels[2].set_yticks([1, 3, 10, 30, 100], ["1", "3", "10", "30", "100"])
    panels[2].set_title("memory of a whole process, MiB", fontsize=9)
    panels[2].set_xticks([])
    panels[2].set_xlabel(f"the {len(rows)} workloads, by Go's memory")
    panels[2].legend(frameon=False)
    return figure


def draw_growth(pyplot, parts):
    figure, panels = pyplot.subplots(1, 2, figsize=(9.6, 3.6))
    for which, (axes, title) in enumerate(zip(panels, ("seconds of a process", "MiB of a process")), 1):
        for who, points in growth(parts).items():
            axes.plot([it[0] for it in points], [it[which] for it in points], "o-", label=who, color=OURS if who == "tmpl" else None)
        axes.set_xscale("log")
        axes.set_yscale("log")
        axes.set_title(title, fontsize=9)
        axes.set_xlabel("rows of a table")
    panels[0].legend(frameon=False)
    return figure


def drawn(parts):
    """Draws both plots; whether matplotlib is there."""
    try:
        import matplotlib
    except ImportError:
        print("plots.py draws nothing: matplotlib is missing (Debian's package is python3-matplotlib)")
        return False
    matplotlib.use("svg")
    from matplotlib import pyplot

    pyplot.rcParams.update(WIDE)
    for name, draw in ((FACTORS, draw_factors), (ENGINES, draw_engines), *bool(growth(parts)) * ((GROWTH, draw_growth),)):
        figure = draw(pyplot, parts)
        figure.tight_layout()
        figure.savefig(f"{harness.TOP}/docs/{name}", metadata={"Date": None, "Creator": None})
        pyplot.close(figure)
    return True


def main(words):
    parts = read()
    if words == ["--check"]:
        wrong = []
        if BEGIN + "".join(f"{line}\n" for line in sentence(parts)) + END not in programs.read(bench.PAGE):
            wrong.append("docs/SPEED.md: the sentences over the plots are not those of its table: python3 -m tests.bench.plots")
        shown = re.search(r"([\d.]+) of the time of Go's", programs.read(f"{harness.TOP}/README.md"))
        if shown and shown[1] != mean_of(parts):
            wrong.append(f"README.md: {shown[1]} of the time of Go's, and the table of docs/SPEED.md has {mean_of(parts)}")
        print("\n".join(wrong), end="")
        return bool(wrong)
    if drawn(parts):
        bench.publish(sentence(parts), BEGIN, END)
    return 0


if __name__ == "__main__":
    sys.exit(main(sys.argv[1:]))
