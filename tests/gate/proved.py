"""Has the toolchain take the libraries that `rt ci` has proved.

`rt ci` leaves them in crates/*/out without the mark by which the toolchain knows what a library was made of, so `rt lib` and `rt check` would
prove each of them once more. runner.py calls `mark` as soon as `rt ci` has passed; tried.py marks those of a copy while it runs."""
import contextlib
import os
import subprocess
import sys

from tests.lib import harness


def toolchain():
    """The toolchain's own module on crates, beside the page that `rt doc` names."""
    page = subprocess.run(["rt", "doc"], stdout=subprocess.PIPE, check=True, text=True).stdout.strip()
    sys.path.insert(0, f"{os.path.dirname(page)}/bin")
    import rtlib

    return rtlib


def mark(begun):
    """Marks the libraries that stand in crates/*/out as made of the sources that stand here, and returns how many; none where a source was
    touched since `rt ci` began, or where the toolchain has no such words: then `rt lib` proves them."""
    try:
        rtlib = toolchain()
        crates = rtlib.crates_below(f"{harness.TOP}/crates")
        files = [file for crate in crates for file in rtlib.files_of(crate.folder)]
        marked = [it for it in crates if it.makes_rlib() and os.path.isdir(it.rlib)]
    except (ImportError, AttributeError):
        return 0
    if any(os.stat(it).st_mtime >= begun for it in files):
        return 0
    write_stamps(marked)
    return len(marked)


def mark_copy(room):
    """Marks the libraries of a copy of the repository, all of which were proved as they stand there."""
    write_stamps([it for it in toolchain().crates_below(f"{room}/crates") if it.makes_rlib() and os.path.isdir(it.rlib)])


def write_stamps(crates):
    """Writes the toolchain's mark of each of these libraries: a file of its own, since that of a copy may be a link."""
    for crate in crates:
        path = f"{os.path.dirname(crate.rlib)}/stamp"
        with contextlib.suppress(FileNotFoundError):
            os.remove(path)
        with open(path, "w", encoding="utf-8") as it:
            it.write(crate.stamp())
