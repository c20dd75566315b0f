"""Templates of the language of Go's text/template over data in JSON: `render(files, name, data)`. By ctypes over libtmpl.so, which
is looked for under the path LIBTMPL, beside this file, and where the system has its libraries."""
from __future__ import annotations

import contextlib
import ctypes
import json
import operator
import os
import re
import threading
from decimal import Decimal
from typing import Any, Iterable, Iterator, List, Literal, Mapping, NamedTuple, Optional, Tuple, Union

__version__ = "0.1.0"

Text = Union[str, bytes]
MissingKey = Literal["default", "invalid", "zero", "error"]
Floats = Literal["refuse", "text"]
Files = Union[Mapping[Text, Text], Iterable[Tuple[Text, Text]]]

OK, FAULT, NOT_TEXT, REFUSED, DATA, FULL, MEMORY, FORMAT = 0, 1, 2, 4, 5, 6, 7, 8
MISSING_KEY = {"default": 0, "invalid": 1, "zero": 2, "error": 3}
JSON = 1  # the form of findings that is asked for
LINE = 1 << 12  # bytes of the first buffer for a line
KEPT = 1 << 20  # a text of more bytes is given back after its render
MOST = 1000  # problems of files that are kept where nothing else is said
PIECE = 1 << 16  # bytes of the lines of a check that are taken at once

# the rules of tmpl-check, by the reason for which a file is refused
RULES = {
    "unclosed or unreadable action": "unreadable",
    "action not understood": "not-understood",
    "out of place": "out-of-place",
    "undeclared variable": "undeclared-variable",
    "file ends inside a control": "open-at-end",
    "nested too deeply": "nested-too-deeply",
    "file longer than 16777216 bytes": "too-long",
    "second definition": "second-definition",
    "too many errors": "too-many-errors",
}
# what follows the path in a line of a check
PROBLEM = re.compile(rf":(\d+):(\d+): error: (({'|'.join(RULES)})(?:: .*)?)$", re.DOTALL)

# the place in a line: in a refused file, and in a run that stopped; a quoted name has no bare quote
PLACES = {
    REFUSED: re.compile(r"tmpl: (?P<file>.*):(?P<number>\d+): ", re.DOTALL),
    FAULT: re.compile(r'tmpl: (?P<file>.*):(?P<number>\d+): in "(?P<template>(?:[^"\\]|\\.)*)": ', re.DOTALL),
}
ESCAPE = re.compile(r"\\(?:x([0-9a-f]{2})|u([0-9a-f]{4})|U([0-9a-f]{8})|(.))")
LETTERS = {"a": "\a", "b": "\b", "f": "\f", "n": "\n", "r": "\r", "t": "\t", "v": "\v"}


class Problem(NamedTuple):
    """An error in a template file, and where it is. `str` gives it as a line as compilers write it, `FILE:LINE:COLUMN: error: TEXT`."""

    file: str  # its path, as a line shows it: control characters by their codes
    line: int  # from 1, as columns, which count characters
    column: int
    rule: str  # as `tmpl-check --format json` names it
    text: str  # the reason, as the command has it, what is wrong, and what to write instead where that is known

    def __str__(self) -> str:
        return f"{self.file}:{self.line}:{self.column}: error: {self.text}"


class Finding(NamedTuple):
    """What a check over a JSON Schema found, and where. `str` gives it as a line as compilers write it."""

    file: str
    line: int  # from 1, as columns, which count characters
    column: int
    level: Literal["error", "warning"]
    rule: str
    text: str
    note: str = ""  # a counterexample, where one is found

    def __str__(self) -> str:
        return f"{self.file}:{self.line}:{self.column}: {self.level}: {self.text}"


def _problem(line, names):
    """A line of a check, taken apart. What looks like a place in one of these names, which are those of the files, is none."""
    name = max((it for it in names if line.startswith(f"{it}:")), key=len, default="")
    found = PROBLEM.search(line, len(name))
    return Problem(line[: found.start()], int(found[1]), int(found[2]), RULES[found[4]], found[3]) if found else Problem("", 0, 0, "", line)


class TemplateError(Exception):
    """A render that failed: its `status` (FAULT, NOT_TEXT, REFUSED, DATA, FULL, FORMAT), the `line` that says why, and the `text` before
    the fault. Where the line names a place of a template file, `file` and `line_number`, from 1, are that place, and for a FAULT `template`
    is the name of the template that ran. Where a number of a Python value is refused, `where` is its place, as in `.prices.0`. What
    it does not have is None."""

    def __init__(
        self, status: int, line: str, text: bytes = b"", where: Optional[str] = None, refused: Tuple[Tuple[bytes, bytes], ...] = (), memory: int = 0
    ):
        super().__init__(status, line, text, where, refused, memory)  # so that it can be pickled
        self.status, self.line, self.text, self.where, self._refused, self._memory = status, line, text, where, refused, memory
        self._problems: Optional[List[Problem]] = None
        place = PLACES[status].match(line) if status in PLACES else None
        self.file: Optional[str] = place["file"] if place else None
        self.line_number: Optional[int] = int(place["number"]) if place else None
        self.template: Optional[str] = _unquoted(place["template"]) if place and status == FAULT else None

    def __str__(self) -> str:
        return f"{self.line} ({self.where})" if self.where else self.line

    @property
    def problems(self) -> List[Problem]:
        """The first 1,000 errors of a file that is refused. They are looked for when this is read first, in the memory
        that the refused call was allowed: it may raise MemoryError. The file is kept until then."""
        if self._problems is None:
            self._problems = check(self._refused, memory=self._memory) if self._refused else []
        return self._problems


def _unquoted(name):
    """A name before it was quoted; bytes that are not UTF-8 become U+FFFD."""

    def code(it):
        byte, short, long, letter = it.groups()
        # a byte stays one, so that the bytes of a name which is no UTF-8 do not become characters
        return chr(0xDC00 + int(byte, 16)) if byte and int(byte, 16) > 127 else LETTERS.get(letter, letter) if letter else \
            chr(int(byte or short or long, 16))

    return ESCAPE.sub(code, name).encode("utf-8", "surrogateescape").decode("utf-8", "replace")


class _File(ctypes.Structure):
    _fields_ = [("name", ctypes.c_char_p), ("name_size", ctypes.c_size_t), ("bytes", ctypes.c_char_p), ("size", ctypes.c_size_t)]


class _Name(ctypes.Structure):
    _fields_ = [("bytes", ctypes.c_char_p), ("size", ctypes.c_size_t)]


class _Question(ctypes.Structure):
    _fields_ = [
        ("schema", _File), ("name", ctypes.c_char_p), ("name_size", ctypes.c_size_t), ("stops", ctypes.POINTER(_Name)), ("stop_count", ctypes.c_size_t),
        ("mode", ctypes.c_uint8), ("format", ctypes.c_uint8),
    ]


class _Settings(ctypes.Structure):
    _fields_ = [
        ("size", ctypes.c_size_t), ("steps", ctypes.c_uint64), ("depth", ctypes.c_uint32), ("missing_key", ctypes.c_uint8),
        ("print", ctypes.c_uint8), ("output", ctypes.c_size_t), ("writes", ctypes.c_char_p), ("writes_size", ctypes.c_size_t),
    ]


class _Buffer(ctypes.Structure):
    _fields_ = [("bytes", ctypes.c_void_p), ("size", ctypes.c_size_t), ("taken", ctypes.c_size_t), ("needed", ctypes.c_size_t)]


class _Kept(ctypes.Structure):
    """A tmpl_set, a tmpl_program or a tmpl_data; all zeros are an empty one."""

    _fields_ = [("held", ctypes.c_void_p)]


class _Text(ctypes.Structure):
    """A tmpl_text; all zeros are an empty one."""

    _fields_ = [("bytes", ctypes.c_void_p), ("size", ctypes.c_size_t), ("held", ctypes.c_void_p)]

    def copied(self):
        return ctypes.string_at(self.bytes, self.size) if self.size else b""


def _library():
    beside = os.path.join(os.path.dirname(os.path.abspath(__file__)), "libtmpl.so")
    it = ctypes.CDLL(os.environ.get("LIBTMPL") or (beside if os.path.exists(beside) else "libtmpl.so.2"))
    text = (ctypes.c_char_p, ctypes.c_size_t)
    buffers = (ctypes.POINTER(_Buffer), ctypes.POINTER(_Buffer))
    it.tmpl_render.restype = ctypes.c_uint8
    it.tmpl_render.argtypes = [ctypes.POINTER(_Settings), ctypes.POINTER(_File), ctypes.c_size_t, *text, *text, *buffers]
    kept, err, owned, settings = (ctypes.POINTER(it) for it in (_Kept, _Buffer, _Text, _Settings))
    calls = {
        "tmpl_check": [ctypes.POINTER(_File), ctypes.c_size_t, ctypes.c_size_t, owned],
        "tmpl_check_schema": [ctypes.POINTER(_File), ctypes.c_size_t, ctypes.POINTER(_Question), owned],
        "tmpl_set_add": [kept, ctypes.POINTER(_File), err],
        "tmpl_set_print": [kept, owned],
        "tmpl_program_make": [kept, kept],
        "tmpl_program_share": [kept, kept],
        "tmpl_data_read": [kept, *text, err],
        "tmpl_data_share": [kept, kept],
        "tmpl_render_text": [settings, kept, kept, *text, owned, owned],
        "tmpl_render_program": [settings, kept, kept, *text, *buffers],
        "tmpl_render_set": [settings, kept, kept, *text, *buffers],
    }
    for name, words in calls.items():
        getattr(it, name).restype, getattr(it, name).argtypes = ctypes.c_uint8, words
    for name, word in (("set", kept), ("program", kept), ("data", kept), ("text", owned)):
        free = getattr(it, f"tmpl_{name}_free")
        free.restype, free.argtypes = None, [word]
    it.tmpl_limit_memory.restype, it.tmpl_limit_memory.argtypes = None, [ctypes.c_size_t]
    it.tmpl_version.restype = ctypes.c_char_p
    it.tmpl_version.argtypes = []
    return it


_LIBRARY = _library()


def _encoded(it, what="a name"):
    if isinstance(it, str):
        return it.encode("utf-8", "surrogateescape")
    if isinstance(it, (bytes, bytearray, memoryview)):
        return bytes(it)
    raise TypeError(f"{what} is a str or bytes, not {type(it).__name__}")


def _mode(missing_key):
    """The number of a mode for missing keys."""
    if missing_key not in MISSING_KEY:
        raise ValueError(f"missing_key is one of {', '.join(map(repr, MISSING_KEY))}, not {missing_key!r}")
    return MISSING_KEY[missing_key]


def _json(data):
    """The bytes of the data: bytes as they are, nothing for None, and the JSON of anything else."""
    return b"" if data is None else bytes(data) if isinstance(data, (bytes, bytearray, memoryview)) else json.dumps(data).encode()


def _value(data, floats):
    """The data by the option `floats`."""
    if floats not in ("refuse", "text"):
        raise ValueError(f"floats is 'refuse' or 'text', not {floats!r}")
    return _with_texts(data) if floats == "text" else data


def _with_texts(data):
    """The value with a string in the place of each float and each Decimal."""
    if isinstance(data, (float, Decimal)):
        return str(data)
    if isinstance(data, dict):
        return {key: _with_texts(it) for key, it in data.items()}
    return [_with_texts(it) for it in data] if isinstance(data, (list, tuple)) else data


def _refused_number(data, at=""):
    """The path of the first number of a value that is no integer or out of range, or None."""
    if isinstance(data, float) or (isinstance(data, int) and not -(1 << 63) <= data < 1 << 63):
        return at or "."
    held = data.items() if isinstance(data, dict) else enumerate(data) if isinstance(data, (list, tuple)) else ()
    return next(filter(None, (_refused_number(it, f"{at}.{key}") for key, it in held)), None)


def _settings(missing_key, depth, steps, printed, output, writes=""):
    depth, steps = operator.index(depth), operator.index(steps)
    if not 0 <= depth < 1 << 32 or not 0 <= steps < 1 << 64:
        raise ValueError("depth is from 0 to 2^32 - 1, and steps from 0 to 2^64 - 1")
    asked, size = _encoded(writes, "a format"), ctypes.sizeof(_Settings)
    return _Settings(size, steps, depth, _mode(missing_key), bool(printed), _count("output", output), asked, len(asked))


def _count(name, count):
    try:
        count = operator.index(count)
    except TypeError:
        raise TypeError(f"{name} is an int, not {type(count).__name__}") from None
    if not 0 <= count < 1 << 64:
        raise ValueError(f"{name} is from 0 to 2^64 - 1")
    return count


@contextlib.contextmanager
def _memory_up_to(count):
    """Calls of this thread take at most this many bytes of memory together meanwhile; any number for 0."""
    count = _count("memory", count)
    if not count:
        yield
        return
    _LIBRARY.tmpl_limit_memory(count)
    try:
        yield
    finally:
        _LIBRARY.tmpl_limit_memory(0)


class _Lent:
    """Memory for output."""

    def __init__(self, size):
        self.memory = ctypes.create_string_buffer(max(size, 1))
        # a cast would keep the memory in a cycle, which only the cyclic collector frees
        self.buffer = _Buffer(ctypes.addressof(self.memory), size, 0, 0)

    def output(self):
        return self.memory[: self.buffer.taken]

    def is_cut(self):
        return self.buffer.taken < self.buffer.needed


def _pairs(files):
    """The files, as bytes."""
    return tuple((_encoded(path, "a path"), _encoded(what, "a file")) for path, what in (files.items() if hasattr(files, "items") else files))


def _array(held):
    return (_File * max(len(held), 1))(*[_File(path, len(path), what, len(what)) for path, what in held])


def _lines(text, most):
    """The first lines of a text of the library, at most so many. The rest is not taken from it."""
    lines, rest, at = [], b"", 0
    while at < text.size and len(lines) < most:
        piece = ctypes.string_at(text.bytes + at, min(PIECE, text.size - at))
        at += len(piece)
        *whole, rest = (rest + piece).split(b"\n")
        lines += whole
    return [it.decode("utf-8", "replace") for it in lines[:most]]


def check(files: Files, *, memory: int = 0, most: int = MOST) -> List[Problem]:
    """The errors in template files, with what to write instead where that is known: the first `most` of them, found in at most `memory`
    bytes, or any number for 0. There are none where all files are accepted, one after the other. Raises TemplateError where the
    name of a file is not UTF-8, and MemoryError."""
    held, text, most = _pairs(files), _Text(), _count("most", most)
    try:
        with _memory_up_to(memory):
            status = _LIBRARY.tmpl_check(_array(held), len(held), most, text)
        if status != REFUSED:
            _said(status, b"tmpl: the name of a file is not UTF-8" if status == NOT_TEXT else b"")
        names = [path.decode("utf-8", "replace") for path, _ in held]
        return [_problem(it, names) for it in _lines(text, most)]
    finally:
        _LIBRARY.tmpl_text_free(text)


def check_schema(
    files: Files, schema: Text, name: Optional[Text] = None, *, missing_key: Optional[MissingKey] = None, stops: Iterable[Text] = (),
    schema_name: Text = "schema", memory: int = 0,
) -> List[Finding]:
    """The findings of `tmpl-check --schema`: every error in the files; where there is none, what of the JSON Schema is not understood; else each
    place at which the template may fail over data of the schema, with a counterexample as its note where one is found; and warnings. Where
    none has the level "error", the template fails over no data that conform, but by limits and by `stops`: templates that may be missing, since
    a call of them is meant to fail. `name` is the template that is rendered, by default the first file's own; `missing_key` is the one mode that
    is asked for, by default each. Raises TemplateError where a name is not UTF-8, and MemoryError."""
    held, text = _pairs(files), _Text()
    about = _encoded(schema_name, "a name"), _encoded(schema, "a schema")
    asked = _encoded(name or b"", "a name")
    names = [_encoded(it, "a name") for it in stops]
    array = (_Name * max(len(names), 1))(*[_Name(it, len(it)) for it in names])
    mode = 0 if missing_key is None else 1 + _mode(missing_key)
    question = _Question(_File(about[0], len(about[0]), about[1], len(about[1])), asked, len(asked), array, len(names), mode, JSON)
    try:
        with _memory_up_to(memory):
            status = _LIBRARY.tmpl_check_schema(_array(held), len(held), question, text)
        if status != REFUSED:
            _said(status, b"tmpl: a name is not UTF-8" if status == NOT_TEXT else b"")
        return [Finding(**it) for it in json.loads(text.copied())["problems"]]
    finally:
        _LIBRARY.tmpl_text_free(text)


def render_into(files, name, data, settings, size, line_size):
    """One call: its status, and the memory that holds its text and its line."""
    held = _pairs(files)
    array = _array(held)
    name = _encoded(held[0][0].rpartition(b"/")[2] if name is None and held else name or b"")
    out, err = _Lent(size), _Lent(line_size)
    status = _LIBRARY.tmpl_render(settings, array, len(held), name, len(name), data, len(data), out.buffer, err.buffer)
    return status, out, err


def _said(status, line, text=b"", data=None):
    """Raises the error of a call that failed. `data` is the value that it read, if any."""
    line = line.decode("utf-8", "replace").rstrip("\n")
    if status == MEMORY:
        raise MemoryError(line or "tmpl: out of memory")
    if status != OK:
        raise TemplateError(status, line, text, _refused_number(data) if status == DATA else None)


def _accepted(call, data=None):
    """Makes a call that says one line, which is given memory for it, and made again with more where the line does not fit."""
    size = LINE
    while True:
        err = _Lent(size)
        status = call(err.buffer)
        if not err.is_cut():
            return _said(status, err.output(), data=data)
        size = err.buffer.needed


def render_bytes(
    files: Files, name: Optional[Text] = None, data: Any = None, *, missing_key: MissingKey = "default", depth: int = 0, steps: int = 0,
    printed: bool = False, floats: Floats = "refuse", output: int = 0, memory: int = 0, writes: str = "",
) -> bytes:
    """What `render` gives, as bytes."""
    with _memory_up_to(memory):
        templates = Templates()
        for path, what in _pairs(files):
            templates._add(path, what, memory)
        return templates.render_bytes(
            name, data, missing_key=missing_key, depth=depth, steps=steps, printed=printed, floats=floats, output=output, writes=writes
        )


def render(
    files: Files, name: Optional[Text] = None, data: Any = None, *, missing_key: MissingKey = "default", depth: int = 0, steps: int = 0,
    printed: bool = False, floats: Floats = "refuse", output: int = 0, memory: int = 0, writes: str = "",
) -> str:
    """The text of the template of this name: by default that of the first file.

    `files` are pairs of a path and what the file holds, or a dict of them; `data` is JSON as bytes, None for no data, Data, or a value that
    json.dumps takes. Options: missing_key, what a missing key gives; depth, of calls of templates, and steps (0 for the defaults);
    printed=True for the printed set; floats="text", by which a float and a Decimal of a value are the text that `str` gives, where else a
    float is refused; output, the most bytes of text, and memory, the most that the library may take to parse, to read data and to run (0
    for any number); writes, the format of which the text has to be, as "json", "yaml" or "csv:3": a text that is not is not given, and is
    a TemplateError of status FORMAT. Raises TemplateError, MemoryError where memory runs out, ValueError for an option out of its range, and TypeError
    for what is of another type."""
    return render_bytes(
        files, name, data, missing_key=missing_key, depth=depth, steps=steps, printed=printed, floats=floats, output=output, memory=memory,
        writes=writes,
    ).decode("utf-8", "replace")


def version() -> str:
    """Which build of the library this is: the commit of its source, and the logic and the toolchain of the proofs."""
    return _LIBRARY.tmpl_version().decode()


class Data:
    """Data that is read once, and rendered as often as you like, by any number of threads: `Data(value)`, with a value as that of
    `render`. It never changes, so a copy is the object itself."""

    def __new__(cls, *_: Any, **__: Any) -> Data:
        self = super().__new__(cls)
        self._kept, self._lock = _Kept(), threading.Lock()  # the lock of the handle, held while it is shared
        return self

    def __init__(self, value: Any = None, *, floats: Floats = "refuse", memory: int = 0):
        value = _value(value, floats)
        read = _json(value)
        with self._lock, _memory_up_to(memory):
            _accepted(lambda err: _LIBRARY.tmpl_data_read(self._kept, read, len(read), err), value)

    def _share(self, kept):
        with self._lock:
            _said(_LIBRARY.tmpl_data_share(self._kept, kept), b"")

    def __copy__(self) -> Data:
        return self

    def __deepcopy__(self, _: Any) -> Data:
        return self

    def __reduce_ex__(self, _: Any) -> Any:
        raise TypeError("Data is not pickled: pass its JSON")

    def __del__(self):
        _LIBRARY.tmpl_data_free(self._kept)


class _Worker:
    """What one render at a time needs: a handle of the program, data that it read last, and two texts, which are used again."""

    def __init__(self, program, version):
        self.program, self.data, self.text, self.line = _Kept(), _Kept(), _Text(), _Text()
        self.version, self.read = version, None
        _said(_LIBRARY.tmpl_program_share(program, self.program), b"")

    def take(self, read, data):
        """Has this data: JSON, of the value `data`, or Data. What was read before is not read again."""
        if read is self.read or (isinstance(read, bytes) and read == self.read):
            return
        self.read = None
        if isinstance(read, Data):
            read._share(self.data)
        else:
            _accepted(lambda err: _LIBRARY.tmpl_data_read(self.data, read, len(read), err), data)
        self.read = read

    def render(self, name, read, settings, data):
        """The text of a render. `read` is JSON, of the value `data`, or Data."""
        self.take(read, data)
        status = _LIBRARY.tmpl_render_text(settings, self.program, self.data, name, len(name), self.text, self.line)
        text, line = self.text.copied(), self.line.copied()
        if self.text.size > KEPT:
            _LIBRARY.tmpl_text_free(self.text)
        _said(status, line, text)
        return text

    def __del__(self):
        _LIBRARY.tmpl_program_free(self.program)
        _LIBRARY.tmpl_data_free(self.data)
        _LIBRARY.tmpl_text_free(self.text)
        _LIBRARY.tmpl_text_free(self.line)


class Templates:
    """Template files that are parsed once, and rendered as often as you like: `Templates(files).render(name, data)`.

    `files` are as those of `render`. Any number of threads may use one object at the same time, and no render waits for another one.
    Each thread that renders at the same time as others has handles of its own here, and data is read anew where its JSON differs from
    that which these read last. The memory is given back with the object, by `close`, or at the end of a `with`."""

    def __new__(cls, *_: Any, **__: Any) -> Templates:
        self = super().__new__(cls)  # what is freed is there also where a class of one's own has another __init__, or __init__ raises
        self._set, self._program, self._idle, self._version, self._made, self._first = _Kept(), _Kept(), [], 0, False, None
        self._lock = threading.Lock()  # of all that is here, but held during no render
        return self

    def __init__(self, files: Files = (), *, memory: int = 0):
        for path, what in _pairs(files):
            self.add(path, what, memory=memory)

    def __reduce_ex__(self, _: Any) -> Any:
        raise TypeError("Templates are not copied: any number of threads use one object, and another process makes its own")

    def add(self, path: Text, what: Text, *, memory: int = 0) -> None:
        """Adds the templates of one more file, in at most `memory` bytes, or raises TemplateError and leaves them as they are."""
        path, what = _encoded(path, "a path"), _encoded(what, "a file")
        with _memory_up_to(memory):
            self._add(path, what, memory)

    def _add(self, path, what, memory):
        with self._lock:
            try:
                _accepted(lambda err: _LIBRARY.tmpl_set_add(self._set, _File(path, len(path), what, len(what)), err))
            except TemplateError as error:
                refused = ((path, what),) if error.status == REFUSED else ()
                raise TemplateError(error.status, error.line, refused=refused, memory=memory) from None
            self._first = path.rpartition(b"/")[2] if self._first is None else self._first
            self._renew()

    def _renew(self):
        """What renders what was there before is not used again."""
        self._version, self._made, self._idle = self._version + 1, False, []

    def _worker(self):
        with self._lock:
            if self._idle:
                return self._idle.pop()
            if not self._made:
                _said(_LIBRARY.tmpl_program_make(self._set, self._program), b"")
                self._made = True
            return _Worker(self._program, self._version)

    def _printed(self):
        text = _Text()
        try:
            with self._lock:
                _said(_LIBRARY.tmpl_set_print(self._set, text), b"")
            return text.copied()
        finally:
            _LIBRARY.tmpl_text_free(text)

    def render_bytes(
        self, name: Optional[Text] = None, data: Any = None, *, missing_key: MissingKey = "default", depth: int = 0, steps: int = 0,
        printed: bool = False, floats: Floats = "refuse", output: int = 0, memory: int = 0, writes: str = "",
    ) -> bytes:
        """What `render` gives, as bytes."""
        settings, data = _settings(missing_key, depth, steps, printed, output, writes), _value(data, floats)
        read, name = data if isinstance(data, Data) else _json(data), (self._first or b"") if name is None else _encoded(name)
        with _memory_up_to(memory):
            if printed:
                return self._printed()
            worker = self._worker()
            try:
                return worker.render(name, read, settings, data)
            finally:
                with self._lock:
                    if worker.version == self._version:
                        self._idle.append(worker)

    def render(
        self, name: Optional[Text] = None, data: Any = None, *, missing_key: MissingKey = "default", depth: int = 0, steps: int = 0,
        printed: bool = False, floats: Floats = "refuse", output: int = 0, memory: int = 0, writes: str = "",
    ) -> str:
        """The text of the template of this name: by default that of the first file. Options and errors are those of `render`."""
        return self.render_bytes(
            name, data, missing_key=missing_key, depth=depth, steps=steps, printed=printed, floats=floats, output=output, memory=memory,
            writes=writes,
        ).decode("utf-8", "replace")

    def render_many(
        self, name: Optional[Text], datas: Iterable[Any], *, missing_key: MissingKey = "default", depth: int = 0, steps: int = 0,
        printed: bool = False, floats: Floats = "refuse", output: int = 0, memory: int = 0, writes: str = "",
    ) -> Iterator[str]:
        """The text for each of these data, one after the other. The first that does not end well raises its error."""
        for data in datas:
            yield self.render(
                name, data, missing_key=missing_key, depth=depth, steps=steps, printed=printed, floats=floats, output=output, memory=memory,
                writes=writes,
            )

    def close(self) -> None:
        """Frees templates and data. It has none then."""
        with self._lock:
            _LIBRARY.tmpl_set_free(self._set)
            _LIBRARY.tmpl_program_free(self._program)
            self._renew()

    def __enter__(self) -> Templates:
        return self

    def __exit__(self, *_: Any) -> None:
        self.close()

    def __del__(self):
        self.close()
