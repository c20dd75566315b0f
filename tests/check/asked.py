"""Writes calls of the C library to a file, each with the status, text and line that must come of it, so that a port of the library can be
held to them: those that the rows are, as library.py makes them; and changed ones, of which the library that is built here says what comes.
tests/ports/asked.c and tests/web/asked.mjs read them.

A call is changed in one to three places: a piece of a file or of the data is left out, doubled, replaced by a byte that means something,
or by a piece of another call; its options or its name are others. Its steps are bounded, and its text fits, so that all of them end soon."""
import os
import random
import struct
import sys

from tests.check import library
from tests.lib import harness

sys.path.insert(0, f"{library.BINDINGS}/python")
if "LIBTMPL" not in os.environ and library.choose():
    os.environ["LIBTMPL"] = f"{library.OUT}/libtmpl.so"
import tmpl

library.tmpl = tmpl
LEAST = 1400  # rows that are calls
LONGEST = 2000  # bytes of a call that is changed
STEPS = 20_000  # that a changed one may take at most
ROOM = 1 << 16  # bytes for text and line; what does not fit is left out
BYTES = b"{}()\"'`\\-|.,$:=/* \n\t09ax\xc3\xa9\xff"
HEAD = struct.Struct("<QIBB2xI")


class Asked:
    """A call, and what must come of it."""

    def __init__(self, files, name, data, settings, came=None):
        self.files, self.name, self.data, self.settings, self.came = files, name, data, settings, came

    def packed(self):
        """The call as the programs of the ports read it: numbers with their lowest byte first, and each text after its size."""
        steps, depth, mode, is_print = self.settings
        status, text, line = self.came
        texts = [part for file in self.files for part in file] + [self.name, self.data]
        head = HEAD.pack(steps, depth, mode, is_print, len(self.files))
        return b"".join([head, *map(sized, texts), struct.pack("<I", status), sized(text), sized(line)])

    def size(self):
        return sum(len(part) for file in self.files for part in file) + len(self.data)


def sized(text):
    return struct.pack("<I", len(text)) + text


def of_rows():
    """The calls that rows are."""
    found = [call for call in map(library.call_of, harness.read_rows()) if call]
    return [Asked([(tmpl._encoded(path), what) for path, what in it.files], tmpl._encoded(it.name), it.data, it.settings,
                  (it.row.status, it.row.out, it.line)) for it in found]


def piece(draw, text):
    """Where a short piece of a text begins and ends."""
    at = draw.randrange(len(text) + 1)
    return at, min(len(text), at + draw.choice((1, 1, 2, 3, 5, 8, 20)))


def altered(draw, text, other):
    """A text with one change, which may take a piece of another text."""
    begin, end = piece(draw, text)
    at, to = piece(draw, other)
    one, byte = text[begin:end], bytes([draw.choice(BYTES)])
    return text[:begin] + draw.choice((b"", one * 2, byte, one + byte, other[at:to])) + text[end:]


def changed(draw, call, other):
    """A call with one to three changes."""
    files, name, data, settings = list(call.files), call.name, call.data, list(call.settings)
    settings[0] = min(settings[0] or STEPS, STEPS)
    for _ in range(draw.randint(1, 3)):
        kind = draw.randrange(10)
        number = draw.randrange(len(files)) if files else 0
        if kind < 6 and files:
            files[number] = files[number][0], altered(draw, files[number][1], draw.choice(other.files or files)[1])
        elif kind < 8:
            data = altered(draw, data, other.data)
        elif kind < 9:
            name = draw.choice((other.name, altered(draw, name, other.name)))
        else:
            settings = [draw.randint(1, 300), draw.randint(1, 12), draw.randrange(4), draw.randrange(2)]
    return Asked(files, name, data, tuple(settings))


def of_changes(calls, count, seed=1):
    """This many changed calls, with what the library that is built here makes of them."""
    draw, small = random.Random(seed), [it for it in calls if it.size() <= LONGEST]
    while count:
        it = changed(draw, *draw.sample(small, 2))
        status, out, err = tmpl.render_into(it.files, it.name, it.data, tmpl._Settings(0, *it.settings), ROOM, ROOM)
        if status not in (tmpl.FULL, tmpl.MEMORY):
            it.came = status, out.output(), err.output()
            yield it
            count -= 1


def write(path, calls):
    """Writes calls to a file, and returns how many."""
    count = 0
    with open(path, "wb") as it:
        for call in calls:
            it.write(call.packed())
            count += 1
    return count
