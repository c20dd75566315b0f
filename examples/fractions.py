"""Copies JSON from standard input to standard output, with each number that is not an integer as a string of its digits: 9.90 becomes
"9.90", 1e3 "1e3". Under the keys that are named as arguments all numbers become strings: `fractions.py price < in > out`."""
import json
import sys


class Integer(str):
    """The digits of an integer."""


def converted(value, to_string):
    if isinstance(value, dict):
        return {key: converted(it, to_string or key in sys.argv[1:]) for key, it in value.items()}
    if isinstance(value, list):
        return [converted(it, to_string) for it in value]
    return int(value) if isinstance(value, Integer) and not to_string else value


def refused(constant):
    raise ValueError(f"{constant} is not JSON")


print(json.dumps(converted(json.load(sys.stdin, parse_float=str, parse_int=Integer, parse_constant=refused), False)))
