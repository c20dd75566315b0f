"""Runs tests/check/library.c under the sanitizers of clang: with each access to memory checked (address), with what C leaves undefined
(undefined), and with races looked for (thread).

    sanitized.py [KIND..]

The engine itself is compiled once more for that: the toolchain is asked for the LLVM module of what was proved, and that is compiled with
the checks; what of the library is C, and the test, is compiled with them too. It needs clang with its runtime libraries, and is no part of
`make test`. `undefined` has nothing to check in the module, which has no such marks; it checks what is C."""
import os
import re
import subprocess
import sys
import tempfile

from tests.lib import harness

KINDS = {"address": ["address"], "undefined": ["address", "undefined"], "thread": ["thread"]}
IN_C = ("heap", "keyed", "keys", "version")
WRAPS = [f"-Wl,--wrap={it}" for it in ("malloc", "realloc", "free")]
# the probes of the stack do not go with the checks
PROBES = re.compile(r'^(attributes #\d+ = \{.*)"probe-stack"="inline-asm" "stack-probe-size"="\d+"', re.MULTILINE)
# as the compiler of the toolchain calls these, where the system's libraries are older and have none of the names
COPIES = """#include <string.h>
__attribute__((weak)) void *__tsan_memcpy(void *to, const void *from, size_t size) { return memcpy(to, from, size); }
__attribute__((weak)) void *__tsan_memmove(void *to, const void *from, size_t size) { return memmove(to, from, size); }
__attribute__((weak)) void *__tsan_memset(void *to, int byte, size_t size) { return memset(to, byte, size); }
"""
# what is freed is soon used again, since library.c looks that memory stays flat
HOW = {"ASAN_OPTIONS": "detect_leaks=1:malloc_context_size=3:quarantine_size_mb=0:thread_local_quarantine_size_kb=0", "UBSAN_OPTIONS": "halt_on_error=1:print_stacktrace=1", "TSAN_OPTIONS": "halt_on_error=1"}


def kit():
    return os.path.dirname(subprocess.run(["rt", "doc"], stdout=subprocess.PIPE, check=True, text=True).stdout.strip())


def engine(folder, kind, tools):
    """The object of what was proved, with the checks of this kind."""
    module, told, to = (f"{folder}/{kind}.{it}" for it in ("bc", "ll", "o"))
    subprocess.run([sys.executable, f"{harness.TOP}/packaging/build.py", "--module", "tmpl_c", module], check=True)
    subprocess.run([f"{tools}/clang", "-S", "-emit-llvm", "-Xclang", "-disable-llvm-passes", "-x", "ir", module, "-o", told], check=True)
    with open(told, encoding="utf-8") as it:
        lines, count = PROBES.subn(rf"\1sanitize_{kind}", it.read())
    if not count:
        sys.exit("the module has no attributes that are known")
    with open(told, "w", encoding="utf-8") as it:
        it.write(lines)
    flags = ["-O1", "-fPIC", "-march=x86-64", "-mllvm", "-trap-unreachable", f"-fsanitize={kind}"]
    subprocess.run([f"{tools}/clang", *flags, "-c", "-x", "ir", told, "-o", to], check=True)
    return to


def judge(folder, kind, tools):
    checks = KINDS[kind]
    flags = ["-std=gnu11", "-g", "-O1", "-Wall", "-Wextra", f"-I{harness.TOP}/bindings/c", f"-fsanitize={','.join(checks)}", "-fno-sanitize-recover=all"]
    sources = [f"{harness.TESTS}/check/library.c", *(f"{harness.TOP}/bindings/c/{it}.c" for it in IN_C)]
    program, copies = f"{folder}/{kind}", f"{folder}/copies.c"
    with open(copies, "w", encoding="utf-8") as it:
        it.write(COPIES)
    words = ["clang", *flags, '-DTMPL_BUILD="tmpl"', *sources, copies, engine(folder, checks[0], tools), "-pthread", *WRAPS, "-o", program]
    subprocess.run(words, check=True)
    done = subprocess.run([program], env={**os.environ, **HOW}, stdout=subprocess.PIPE, stderr=subprocess.STDOUT, check=False)
    said = done.stdout.decode(errors="replace")
    print(f"{kind}: {said.rstrip()}", flush=True)
    is_right = done.returncode == 0 and re.search(r"^\d+ cases, 0 failed$", said, re.MULTILINE)
    return f"tests/check/library.c, {kind}", 1, [] if is_right else [f"    status {done.returncode}"]


def main(words):
    kinds = words or list(KINDS)
    if not set(kinds) <= set(KINDS):
        sys.exit(f"kinds are {', '.join(KINDS)}")
    tools = f"{kit()}/toolchain/bin"
    with tempfile.TemporaryDirectory() as folder:
        passed, failed, _ = harness.tally(judge(folder, kind, tools) for kind in kinds)
    return harness.closing(passed, failed)


if __name__ == "__main__":
    sys.exit(main(sys.argv[1:]))
