"""Processor time of the provers that this process started, by crate and by what they did. The toolchain prints no
times, so a thread looks at the processes twice a second; what one takes between the last look and its end is missed,
and stands with the rest."""
import collections
import os
import resource
import threading

SECONDS = 0.5  # between two looks
KINDS = ("proof", "edits")
PROVERS = ("rattle", "antt-kernel")  # the second checks a part for the first, of which it is a copy
TICK = 1 / os.sysconf("SC_CLK_TCK")


def seen(process):
    """The parent of a process, its name, when it started and its own seconds, from the system's line on it."""
    with open(f"/proc/{process}/stat", encoding="utf-8", errors="replace") as it:
        head, _, tail = it.read().rpartition(")")
    fields = tail.split()
    return int(fields[1]), head.partition("(")[2], int(fields[19]), (int(fields[11]) + int(fields[12])) * TICK


def work_of(process):
    """The crate that a prover works on, and what it does: the proof, or that of a wrong body."""
    with open(f"/proc/{process}/cmdline", "rb") as it:
        words = it.read().decode(errors="replace").split("\0")
    crate = words[words.index("--crate-name") + 1] if "--crate-name" in words[:-1] else "other"
    room = os.readlink(f"/proc/{process}/cwd")
    kind = "edits" if "/edits-" in room or os.path.basename(room).startswith("rt-edit") else "proof"
    return crate, kind


class Watch:
    """Looks at the provers from its start until it is asked for the table."""

    def __init__(self):
        self.seconds, self.works = {}, {}
        self.ended = threading.Event()
        self.thread = threading.Thread(target=self.look_on, daemon=True)
        self.thread.start()

    def look_on(self):
        while not self.ended.wait(SECONDS):
            self.look()

    def look(self):
        told = {}
        for process in filter(str.isdigit, os.listdir("/proc")):
            try:
                told[int(process)] = seen(process)
            except OSError:
                pass  # it has ended
        for process, (parent, name, started, seconds) in told.items():
            if name not in PROVERS or not self.is_ours(told, parent):
                continue
            try:
                if (process, started) not in self.works:
                    self.works[process, started] = work_of(process)
                self.seconds[process, started] = seconds
            except OSError:
                pass

    def is_ours(self, told, process):
        while process in told and process != os.getpid():
            process = told[process][0]
        return process == os.getpid()

    def minutes(self):
        """Ends the watch: the minutes by crate and kind."""
        self.ended.set()
        self.thread.join()
        told = collections.Counter()
        for process, seconds in self.seconds.items():
            told[self.works[process]] += seconds / 60
        return told

    def table(self):
        """Ends the watch: lines of minutes by crate and kind, then the rest, and all that was started from here."""
        told = self.minutes()
        crates = sorted({crate for crate, _ in told})
        used = resource.getrusage(resource.RUSAGE_CHILDREN)
        whole = (used.ru_utime + used.ru_stime) / 60
        lines = [row("minutes of processors", *KINDS, "in all")]
        for crate in crates:
            cells = [told[crate, kind] for kind in KINDS]
            lines.append(row(crate, *cells, sum(cells)))
        cells = [sum(told[crate, kind] for crate in crates) for kind in KINDS]
        lines.append(row("all crates", *cells, sum(cells)))
        lines.append(row("the rest", *[""] * len(KINDS), max(whole - sum(cells), 0)))
        lines.append(row("in all", *[""] * len(KINDS), whole))
        return lines


def row(head, *cells):
    return f"{head:<24}" + "".join(f"{it:>9}" if isinstance(it, str) else f"{it:>9.1f}" for it in cells)
