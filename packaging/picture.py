"""Draws docs/check.svg: a terminal with a run of tmpl-check, whose lines are those that the program prints here. `picture.py PROGRAM` names
a build of tmpl-check; with `--check` after it nothing is written, and the exit status is 1 where the picture is another one."""
import html
import os
import re
import subprocess
import sys
import tempfile

TOP = os.path.dirname(os.path.dirname(os.path.abspath(__file__)))
PICTURE = f"{TOP}/docs/check.svg"
FILES = {
    "letter.tmpl": "Dear {{.name}},\nwe write to {{.mail}}.\n",
    "schema.json": '{\n  "type": "object",\n  "required": ["name"],\n  "properties": {"name": {"type": "string"}, "mail": {"type": "string"}}\n}\n',
}
COMMANDS = [
    "cat letter.tmpl",
    "cat schema.json",
    "tmpl-check --schema schema.json letter.tmpl",
    """sed -i 's/{{.mail}}/{{or (index . "mail") "you"}}/' letter.tmpl""",
    "tmpl-check --schema schema.json letter.tmpl && echo accepted",
]
TITLE = "tmpl-check finds a field that may be absent, and the data for which the template fails"
WIDTH, HEIGHT, LEFT, TOP_LINE = 8.0, 20, 16, 52  # of a character and of a line, and where the first is
COLOURS = {"prompt": "#7aa874", "error": "#e06c5f", "note": "#d9b36c", "plain": "#d8d8d8"}
HEAD = """<svg xmlns="http://www.w3.org/2000/svg" role="img" aria-labelledby="title run" width="{wide}" height="{high}" viewBox="0 0 {wide} {high}">
<title id="title">{title}</title>
<desc id="run">{run}</desc>
<rect width="100%" height="100%" rx="8" fill="#1e2127"/>
<g fill="#5c6370"><circle cx="20" cy="18" r="6"/><circle cx="40" cy="18" r="6"/><circle cx="60" cy="18" r="6"/></g>
<g font-family="ui-monospace, SFMono-Regular, Menlo, Consolas, DejaVu Sans Mono, monospace" font-size="13" xml:space="preserve">
"""


def run(program):
    """The lines of the terminal."""
    lines = []
    with tempfile.TemporaryDirectory() as folder:
        os.mkdir(f"{folder}/bin")
        os.symlink(os.path.abspath(program), f"{folder}/bin/tmpl-check")
        for name, text in FILES.items():
            with open(f"{folder}/{name}", "w", encoding="utf-8") as it:
                it.write(text)
        environment = {**os.environ, "PATH": f"{folder}/bin:{os.environ['PATH']}", "LC_ALL": "C.UTF-8"}
        for command in COMMANDS:
            ran = subprocess.run(["sh", "-c", command], cwd=folder, env=environment, stdout=subprocess.PIPE, stderr=subprocess.STDOUT)
            lines += [f"$ {command}", *ran.stdout.decode().splitlines()]
    return lines


def parts(line):
    """A line in its colours."""
    if line.startswith("$ "):
        return [("prompt", "$ "), ("plain", line[2:])]
    found = re.fullmatch(r"(\S+: )(error|note)(: .*)", line)
    return [("plain", found[1]), (found[2], found[2]), ("plain", found[3])] if found else [("plain", line)]


def drawn(lines):
    wide = round(2 * LEFT + WIDTH * max(map(len, lines)))
    out = HEAD.format(wide=wide, high=TOP_LINE + HEIGHT * len(lines), title=html.escape(TITLE), run=html.escape("\n".join(lines)))
    for number, line in enumerate(lines):
        shown = parts(line.replace(" ", "\u00a0") if line.startswith(" ") else line)  # viewers drop spaces at the start of a line
        spans = "".join(f'<tspan fill="{COLOURS[colour]}">{html.escape(text, quote=False)}</tspan>' for colour, text in shown)
        out += f'<text x="{LEFT}" y="{TOP_LINE + HEIGHT * number}" textLength="{WIDTH * len(line):g}">{spans}</text>\n'
    return f"{out}</g>\n</svg>\n"


def main(program, *options):
    picture = drawn(run(program))
    if "--check" in options:
        with open(PICTURE, encoding="utf-8") as it:
            if it.read() == picture:
                return 0
        print("docs/check.svg is not what packaging/picture.py draws")
        return 1
    with open(PICTURE, "w", encoding="utf-8") as it:
        it.write(picture)
    return 0


if __name__ == "__main__":
    sys.exit(main(*sys.argv[1:]) if len(sys.argv) > 1 else "usage: picture.py PROGRAM [--check]")
