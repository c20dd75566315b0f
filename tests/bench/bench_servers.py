"""Uses the C library and its bindings as servers do, and writes what came, beside what was wanted, into a table of its own in docs/SPEED.md:
`bench_servers.py [--dry]`, as bench.py. What needs Go, or more memory than is there, is left out."""
import os
import shutil
import subprocess
import sys
import tempfile

from tests.bench import bench
from tests.check import hostile
from tests.lib import harness

BEGIN, END = "<!-- made by `make bench`, servers: begin -->\n", "<!-- made by `make bench`, servers: end -->\n"
HEADINGS = ["| What | Came | Wanted | |", "|---|---|---|---|"]
BINDINGS = f"{harness.TOP}/bindings"
LIBRARY = {**os.environ, "PYTHONPATH": f"{BINDINGS}/python", "LIBTMPL": f"{BINDINGS}/out/libtmpl.so"}
GIB = 1 << 30
LONG = (220_000_000, 430_000_000)  # times ten bytes: above 2^31, above 2^32
MOST_SHARED = 1.2  # how much longer threads may take that share a program: none, and what the noise adds
LENT = b"{{range 100000000}}0123456789{{end}}"


class Rows:
    def __init__(self):
        self.rows = []

    def row(self, what, came, wanted, holds=None):
        told = "" if holds is None else "holds" if holds else "does not hold"
        self.rows.append(f"| {what} | {came} | {wanted} | {told} |")
        print(f"  {what}: {came}; {wanted} wanted: {told}", flush=True)


def said_by(words, **how):
    return subprocess.run(words, stdout=subprocess.PIPE, check=True, text=True, **how).stdout.split()


def of_python(source, *words):
    """The numbers that a program in Python puts out, over the wrapper."""
    return list(map(float, said_by([sys.executable, "-c", source, *words], env=LIBRARY)))


def compiled(folder, source):
    to = f"{folder}/{source}"
    words = ["cc", "-O2", f"-I{BINDINGS}/c", f"{harness.TESTS}/bench/{source}.c", f"{BINDINGS}/out/libtmpl.a", "-pthread", "-o", to]
    subprocess.run(words, check=True)
    return to


def time_once(speed, folder, text):
    """Seconds that the library takes to parse a template and to render it, the least of 31 times, and KiB of the process."""
    words = [speed, bench.write(f"{folder}/text", [text]), bench.write(f"{folder}/none", [b"null"]), "1"]
    nanoseconds = int(said_by(words)[0])
    return nanoseconds / 1e9, bench.once(words)[1]


def bench_operands(rows, folder, speed):
    """Calls of many operands in a template that is not called: the memory that a run takes is that of what it can reach."""
    text = b'{{define "t"}}{{if 0}}{{and%s}}{{template "t"}}{{end}}{{end}}x' % (b" 1" * 50_000)
    seconds, held = time_once(speed, folder, text)
    go = bench.go_renderer(folder)
    beside = ""
    if go:
        least = int(said_by([go, "times", f"{folder}/text", f"{folder}/none", "1"])[0])
        beside = f" (Go {bench.shown(least / 1e9)})"
    came = f"{bench.shown(seconds)}, {held / 1024:.0f} MiB{beside}"
    rows.row("100 kB of operands of `and` in a template that calls itself and that nothing calls", came, "0.15 s, 60 MiB", seconds <= 0.15 and held <= 60 * 1024)


def bench_names(rows, folder, speed):
    """Names that the quick hash of the standard library does not tell apart, beside others of their length."""
    count = 2_560_000 // len(hostile.defining([b"24 bytes, as the others."]))
    alike, _ = time_once(speed, folder, hostile.defining(hostile.alike(count)))
    others, _ = time_once(speed, folder, hostile.defining([b"%08d and the other tail." % it for it in range(count)]))
    came = f"{bench.shown(alike)}, other names {bench.shown(others)}"
    rows.row("2.56 MB of definitions whose names collide in a hash without a key", came, "at most 3 times other names", alike <= 3 * others)


def bench_shared(rows, folder, speed):
    """Threads that share a program and data, by handles of their own, beside threads of which each has a program and data of its own."""
    words = [speed, bench.write(f"{folder}/hello", [b"Hello, {{.user.name}}!\n"]), bench.write(f"{folder}/user", [b'{"user": {"name": "Ada"}}'])]
    for threads in bench.THREADS:
        kept = ["kept", "0", str(threads)]
        told = bench.turns({"shared": (words, kept), "own": (words, [*kept, "own"])}, 50_000)
        shared, own = (f"{bench.shown(told[who][0] / 1e9)}, {bench.shown(told[who][1] / 1e9)}" for who in ("shared", "own"))
        what = "a kept `Hello` in a thread, the least and the median" if threads == 1 else f"the same in each of {threads} threads that share a program"
        rows.row(what, f"{shared}; with a program of each thread {own}", f"at most {MOST_SHARED} times", told["shared"][1] <= MOST_SHARED * told["own"][1])


def bench_threads(rows, folder):
    wrong = int(said_by([compiled(folder, "servers"), "8", "20000"])[0])
    rows.row("one program in 8 threads of C, each with data of its own", f"{wrong:,} of 160,000 outputs wrong", "0", wrong == 0)


SERVER = """
import json, threading, urllib.request
from concurrent.futures import ThreadPoolExecutor
from http.server import BaseHTTPRequestHandler, ThreadingHTTPServer
import tmpl
pages = tmpl.Templates({"m": "Hello, {{.user}}!"})
class Handler(BaseHTTPRequestHandler):
    def do_GET(self):
        text = pages.render_bytes("m", {"user": self.path})
        self.send_response(200)
        self.send_header("Content-Length", str(len(text)))
        self.end_headers()
        self.wfile.write(text)
    def log_message(self, *_):
        pass
class Server(ThreadingHTTPServer):
    request_queue_size = 256
server = Server(("127.0.0.1", 0), Handler)
threading.Thread(target=server.serve_forever, daemon=True).start()
def ask(number):
    with urllib.request.urlopen(f"http://127.0.0.1:{server.server_port}/{number}") as it:
        return it.read() != b"Hello, /%d!" % number
with ThreadPoolExecutor(16) as pool:
    print(sum(pool.map(ask, range(6400))))
"""
PLAIN = """
import tmpl
from concurrent.futures import ThreadPoolExecutor
pages = tmpl.Templates({"m": "Hello, {{.user}}!"})
def work(number):
    return sum(pages.render_bytes("m", {"user": f"{number}/{it}"}) != b"Hello, %d/%d!" % (number, it) for it in range(20000))
with ThreadPoolExecutor(8) as pool:
    print(sum(pool.map(work, range(8))))
"""
FLAT = """
import gc, tmpl
gc.disable()
def held():
    with open("/proc/self/status") as it:
        return next(int(line.split()[1]) for line in it if line.startswith("VmRSS"))
pages = tmpl.Templates({"m": "{{range 1500000}}0123456789{{end}}"})
def rise(render):
    for _ in range(10):
        render()
    before = held()
    for _ in range(60):
        assert len(render()) == 15_000_000
    return held() - before
print(rise(lambda: pages.render_bytes("m")), rise(lambda: tmpl.render_bytes({"m": "{{range 1500000}}0123456789{{end}}"}, "m")))
"""
ONCE = """
import sys, time, tmpl
pages, times = tmpl.Templates({"m": open(sys.argv[1], "rb").read()}), []
for _ in range(31):
    start = time.perf_counter_ns()
    pages.render_bytes("m")
    times.append(time.perf_counter_ns() - start)
print(min(times))
"""


def bench_python(rows, folder, speed):
    wrong = of_python(SERVER)[0]
    rows.row("6,400 requests of 16 clients to a threaded web server in Python with one `Templates`", f"{wrong:,.0f} wrong answers", "0", wrong == 0)
    wrong = of_python(PLAIN)[0]
    rows.row("the same `Templates` in 8 threads of Python", f"{wrong:,.0f} of 160,000 outputs wrong", "0", wrong == 0)
    rises = of_python(FLAT)
    came = " and ".join(f"{it / 1024:.1f} MiB" for it in rises)
    rows.row("how much more is held after 60 more outputs of 15 MB in Python, without the cyclic collector, kept and not kept", came, "flat", max(rises) < 2 * 1024)
    text = b"{{range 1000000}}0123456789{{end}}"
    by_python = of_python(ONCE, bench.write(f"{folder}/once", [text]))[0]
    by_c = int(said_by([speed, f"{folder}/once", bench.write(f"{folder}/none", [b"null"]), "1", "kept"])[0])
    came = f"{bench.shown(by_python / 1e9)}, by C {bench.shown(by_c / 1e9)}"
    rows.row("an output of 10 MB by Python, which copies it once", came, "rendered once: less than 2 times C", by_python < 2 * by_c)


ROOM = """
import resource, tmpl
try:
    tmpl.render_bytes({"m": open(__import__("sys").argv[1], "rb").read()}, "m", output=1024)
except tmpl.TemplateError as error:
    print(error.status, len(error.text), resource.getrusage(resource.RUSAGE_SELF).ru_maxrss)
"""


def bench_room(rows, folder):
    status, size, held = of_python(ROOM, bench.write(f"{folder}/lent", [LENT]))
    came = f"it returns {status:.0f}, {size:,.0f} bytes, {held / 1024:.0f} MiB held by the process of Python"
    rows.row(f"a template of {len(LENT)} bytes that makes 1 GB, where the host allows 1,024 bytes", came, "what the host allows", (status, size) == (6, 1024) and held < 64 * 1024)


def bench_long(rows, folder):
    """Long texts by the binding for Go, where there are Go and the memory."""
    with open("/proc/meminfo", encoding="ascii") as it:
        free = next(int(line.split()[1]) << 10 for line in it if line.startswith("MemAvailable"))
    if not shutil.which("go") or free < 12 * GIB:
        return
    home = f"{folder}/long"
    shutil.copytree(f"{harness.TESTS}/bench/long_go", home)
    bench.write(f"{home}/go.mod", [b"module long\n\ngo 1.17\n\nrequire tmpl v0.0.0\n\nreplace tmpl => %s/go\n" % BINDINGS.encode()])
    environment = {**os.environ, "GOFLAGS": "-mod=mod"}
    subprocess.run(["go", "build", "-o", "long", "."], cwd=home, env=environment, check=True)
    for count in LONG:
        written, said = said_by([f"{home}/long", str(count)])
        rows.row(f"an output of {count / 1e8:.1f} GB by the binding for Go", f"{int(written):,} bytes", "whole", (int(written), said) == (10 * count, "<nil>"))


def main(words):
    rows = Rows()
    with tempfile.TemporaryDirectory() as folder:
        bench.PEAK = f"{folder}/peak"
        subprocess.run(["cc", "-O2", f"{harness.TESTS}/bench/peak.c", "-o", bench.PEAK], check=True)
        speed = compiled(folder, "speed")
        bench_operands(rows, folder, speed)
        bench_names(rows, folder, speed)
        bench_shared(rows, folder, speed)
        bench_threads(rows, folder)
        bench_python(rows, folder, speed)
        bench_room(rows, folder)
        bench_long(rows, folder)
    beside = bench.go_name() if shutil.which("go") else "nothing"
    lines = [bench.head(beside), "", *HEADINGS, *rows.rows]
    if "--dry" in words:
        print(*lines, sep="\n")
    else:
        bench.publish(lines, BEGIN, END)


if __name__ == "__main__":
    main(sys.argv[1:])
