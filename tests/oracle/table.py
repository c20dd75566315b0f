"""The functions of templates, as the table of docs/LANGUAGE.md has them: it is the one list from which the tests take names and numbers of
arguments, and generated.py holds every other list against it."""
import os
import re

TOP = os.path.dirname(os.path.dirname(os.path.dirname(os.path.abspath(__file__))))
MANY = 1000  # stands for any number of arguments
ROW = re.compile(r"^\| ((?:`[a-z]+` ?)+)\| (any|\d+(?: or more| to \d+)?) \|", re.MULTILINE)


def counts_of(told):
    """The least and the greatest number of arguments: of `any`, `2`, `2 or more` or `1 to 3`."""
    numbers = [int(it) for it in re.findall(r"\d+", told)] or [0]
    return numbers[0], MANY if told.endswith(("any", "more")) else numbers[-1]


def read():
    """Each function with its least and its greatest number of arguments."""
    with open(f"{TOP}/docs/LANGUAGE.md", encoding="utf-8") as it:
        rows = re.search(r"^\| Function \| Arguments \| Gives \|$(.*?)\n\n", it.read(), re.MULTILINE | re.DOTALL)[1]
    return {name: counts_of(told) for names, told in ROW.findall(rows) for name in re.findall(r"[a-z]+", names)}


COUNTS = read()
NAMES = list(COUNTS)
