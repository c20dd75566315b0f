"""Makes the completions of this folder for bash, zsh and fish from the usage lines of docs/COMMAND.md and docs/CHECK.md and their
tables of options. With `--check` it writes nothing, and tells which is not as it would make it."""
import os
import re
import sys

HERE = os.path.dirname(os.path.abspath(__file__))
DOCS = f"{os.path.dirname(HERE)}/docs"
PAGES = {"tmpl": "COMMAND.md", "tmpl-check": "CHECK.md"}
HELP = {"tmpl": "the usage line", "tmpl-check": "the options and what they do"}
OPTION = re.compile(r"\[(--[a-z-]+)(?: ([A-Za-z|]+))?\]")


def usage(program="tmpl"):
    """The usage line."""
    with open(f"{DOCS}/{PAGES[program]}", encoding="utf-8") as it:
        return re.search(rf"^    ({program} .*)$", it.read(), re.MULTILINE)[1]


def options(program="tmpl"):
    """Each option with what it takes: nothing, a file, a number, a name, or one of several words."""
    return dict(OPTION.findall(usage(program)))


def said(program):
    """What each option says, in few words, of the table of options."""
    with open(f"{DOCS}/{PAGES[program]}", encoding="utf-8") as it:
        rows = re.findall(r"^\| `(--[a-z-]+)[^`]*` \| (.*?) \|", it.read(), re.MULTILINE)
    bare = {name: re.sub(r"none: |`|\[|\]\([^)]*\)", "", about) for name, about in rows}
    return {name: re.split("[;:,(]", about)[0].strip() for name, about in bare.items()}


BASH = """\
# completion of {program} for bash; made by completions/make.py
{function}() {{
    local word=${{COMP_WORDS[COMP_CWORD]}} before=${{COMP_WORDS[COMP_CWORD - 1]}} it
    # readline may part --option=value at the sign
    [[ $word == = ]] && word=
    [[ $before == = ]] && before=${{COMP_WORDS[COMP_CWORD - 2]}}
    COMPREPLY=()
    for it in "${{COMP_WORDS[@]:1:COMP_CWORD-1}}"; do
        if [[ $it == -- ]]; then
            compopt -o filenames 2>/dev/null
            mapfile -t COMPREPLY < <(compgen -f -- "$word")
            return
        fi
    done
    case $before in
{values}
    esac
    if [[ $word == -* ]]; then
        mapfile -t COMPREPLY < <(compgen -W "{names}" -- "$word")
    else
        compopt -o filenames 2>/dev/null
        mapfile -t COMPREPLY < <(compgen -f -- "$word")
    fi
}}
complete -F {function} {program}
"""


def bash(program):
    values = []
    for name, takes in options(program).items():
        if not takes:
            continue
        gives = "compgen -f" if takes == "FILE" else f'compgen -W "{takes.replace("|", " ")}"' if "|" in takes else None
        reply = f'mapfile -t COMPREPLY < <({gives} -- "$word")' if gives else ":"
        files = "compopt -o filenames 2>/dev/null; " if takes == "FILE" else ""
        values.append(f"    {name}) {files}{reply}; return ;;")
    names = " ".join([*options(program), "--help"])
    return BASH.format(program=program, function=f"_{program.replace('-', '_')}", values="\n".join(values), names=names)


def zsh(program):
    its = []
    for name, takes in options(program).items():
        what = {"": "", "FILE": ":file:_files"}.get(takes, f":value:({takes.replace('|', ' ')})" if "|" in takes else f":{takes}: ")
        its.append(f"    '{name}{'=' * bool(takes)}[{said(program)[name]}]{what}' \\")
    its.append("    '(- *)'{-h,--help}'[" + HELP[program] + "]' \\")
    head = [f"#compdef {program}", f"# completion of {program} for zsh; made by completions/make.py", "_arguments -s -S \\"]
    return "\n".join([*head, *its, "    '*:template file:_files'", ""])


def fish(program):
    its = [f"# completion of {program} for fish; made by completions/make.py"]
    for name, takes in options(program).items():
        words = f" -x -a '{takes.replace('|', ' ')}'" if "|" in takes else {"": "", "FILE": " -r -F"}.get(takes, " -x")
        its.append(f"complete -c {program} -l {name[2:]}{words} -d '{said(program)[name]}'")
    its.append(f"complete -c {program} -s h -l help -d '{HELP[program]}'")
    return "\n".join(its) + "\n"


MADE = {form.format(it): (make, it) for it in PAGES for form, make in (("{}.bash", bash), ("_{}", zsh), ("{}.fish", fish))}


def main(words):
    wrong = []
    for name, (make, program) in MADE.items():
        path, made = f"{HERE}/{name}", make(program)
        if words == ["--check"]:
            with open(path, encoding="utf-8") as it:
                wrong += [name] * (it.read() != made)
        else:
            with open(path, "w", encoding="utf-8") as it:
                it.write(made)
    for name in wrong:
        print(f"completions/{name} is not what completions/make.py makes: run it")
    return 1 if wrong else 0


if __name__ == "__main__":
    sys.exit(main(sys.argv[1:]))
