"""Makes what runs in browsers and in Node: `make.py wasm MODULE TO` the WebAssembly module, of the LLVM module of the C library, and
`make.py page WASM TO` the page.

The LLVM module is for x86-64 at its oldest. It is compiled once more for WebAssembly with memories of 64 bits, which has the same sizes and
alignments, and the same order of bytes; it is linked with what is C here; and wasm-opt of binaryen lowers it to memories of 32 bits,
which every browser has. Pointers stay numbers of 64 bits in each call."""
import base64
import gzip
import hashlib
import json
import os
import re
import subprocess
import sys
import tempfile

HERE = os.path.dirname(os.path.abspath(__file__))
TOP = os.path.dirname(os.path.dirname(HERE))
sys.path[:0] = [TOP, f"{TOP}/packaging"]
import build
from tests.lib import harness

TOOLS = f"{build.rtlib.KIT}/toolchain/bin"
TARGET = "wasm64-unknown-unknown"
LAYOUT = "e-m:e-p:64:64-p10:8:8-p20:8:8-i64:64-i128:128-n32:64-S128-ni:1:10:20"
FEATURES = ("bulk-memory", "bulk-memory-opt", "mutable-globals", "nontrapping-fptoint", "sign-ext")  # in browsers since 2021
# an empty one only keeps the compiler from moving accesses past it, as around a count of owners
OF_A_PROCESSOR = re.compile(r'@llvm\.(x86|aarch64)\.|\basm (?!sideeffect "", "~\{memory\}")')
OF_X86 = '"probe-stack"="inline-asm" "stack-probe-size"="3072" "target-cpu"="x86-64"'
OURS = ("memory_take", "memory_give", "keys_set")  # what the caller lends memory by, and gives keys
STACK = 1 << 20  # bytes; it lies below all else, so that a call past its end is a trap
MOST = 1 << 32  # bytes of memory
LOWERED = ("bulk-memory", "mutable-globals", "sign-ext", "nontrapping-float-to-int")


def ran(*words):
    subprocess.run(words, check=True)


def retargeted(text):
    """The text of an LLVM module for x86-64 as that of one for WebAssembly."""
    if OF_A_PROCESSOR.search(text):
        sys.exit("the module has code of one processor")
    text = re.sub(r"^target datalayout = .*", f'target datalayout = "{LAYOUT}"', text, flags=re.MULTILINE)
    text = re.sub(r"^target triple = .*", f'target triple = "{TARGET}"', text, flags=re.MULTILINE)
    text = text.replace(OF_X86, f'"target-cpu"="generic" "target-features"="{",".join(f"+{it}" for it in FEATURES)}"')
    if "x86" in text:
        sys.exit("something of x86-64 is left in the module")
    return text


def compiled(module, folder):
    """The object of the module."""
    ran(f"{TOOLS}/clang", "-x", "ir", module, "-S", "-emit-llvm", "-Xclang", "-disable-llvm-passes", "-o", f"{folder}/x86.ll")
    with open(f"{folder}/x86.ll", encoding="utf-8") as it:
        text = retargeted(it.read())
    with open(f"{folder}/wasm.ll", "w", encoding="utf-8") as it:
        it.write(text)
    flags = ["-O3", "-Werror", "-mllvm", "-trap-unreachable", "-ffunction-sections", "-fdata-sections"]
    ran(f"{TOOLS}/clang", f"--target={TARGET}", *flags, "-c", "-x", "ir", f"{folder}/wasm.ll", "-o", f"{folder}/tmpl.o")
    return f"{folder}/tmpl.o"


IN_C = [*(f"{HERE}/{it}.c" for it in ("heap", "keys", "wide")), f"{TOP}/bindings/c/keyed.c"]


def compiled_c(path, folder):
    """The object of a file in C. The compiler of the toolchain has no headers, so it takes ours."""
    flags = ["-std=c23", "-O2", "-Wall", "-Wextra", "-Werror", "-ffreestanding", "-mbulk-memory", "-mno-multivalue", "-mno-reference-types"]
    to = f"{folder}/{os.path.basename(path)}.o"
    ran(f"{TOOLS}/clang", f"--target={TARGET}", *flags, "-I", f"{HERE}/include", "-c", path, "-o", to)
    return to


def calls():
    """The calls that the header of the C library declares."""
    with open(f"{TOP}/bindings/c/tmpl.h", encoding="utf-8") as it:
        return re.findall(r"^\w+ \*?(tmpl_\w+)\(", it.read(), re.MULTILINE)


def make_wasm(module, to):
    with tempfile.TemporaryDirectory() as folder:
        objects = [compiled(module, folder), *(compiled_c(it, folder) for it in IN_C)]
        shown = [f"--export={it}" for it in (*calls(), *OURS)]
        flags = ["--no-entry", "--gc-sections", "--fatal-warnings", "--strip-all"]
        flags += ["--stack-first", "-z", f"stack-size={STACK}", f"--max-memory={MOST}"]
        ran(f"{TOOLS}/ld.lld", "-flavor", "wasm", "-mwasm64", *flags, *shown, *objects, "-o", f"{folder}/wide.wasm")
        enabled = [f"--enable-{it}" for it in ("memory64", *LOWERED)]
        ran("wasm-opt", *enabled, "--memory64-lowering", f"{folder}/wide.wasm", "-o", to)


# ---- the page


def read(path):
    with open(f"{TOP}/{path}", encoding="utf-8") as it:
        return it.read()


def hashed(text):
    """How a policy names a script or a style that stands in the page."""
    return f"'sha256-{base64.b64encode(hashlib.sha256(text.encode()).digest()).decode()}'"


def policy(script, style):
    """Nothing is fetched or sent, and nothing runs but what stands in the page."""
    allowed = {"default-src": "'none'", "script-src": f"{hashed(script)} 'wasm-unsafe-eval'", "style-src": hashed(style)}
    allowed |= {"worker-src": "blob:", "img-src": "data:", "base-uri": "'none'", "form-action": "'none'"}
    return "; ".join(f"{what} {where}" for what, where in allowed.items())


def examples():
    """The examples of the repository, as the page has what was typed."""
    found = {}
    for row in harness.read_examples():
        words, files, data = harness.parted(row.words)
        options = dict(zip(words, words[1:]))
        found[row.name.partition(": ")[2]] = {
            "files": [[it.decode(), row.files[it.decode()].decode()] for it in files],
            "data": row.files[data.decode()].decode() if data else "",
            "missingKey": options.get(b"--missingkey", b"default").decode(),
            "printed": b"--print" in words,
        }
    return json.dumps(found, ensure_ascii=False).replace("</", "<\\/")


def as_script(module):
    """A JavaScript module as a script: a worker of a page that was opened as a file can be no module."""
    return re.sub(r"^export ", "", module, flags=re.MULTILINE).replace("import.meta.url", "location")


def make_page(wasm, to):
    with open(wasm, "rb") as it:
        module = base64.b64encode(gzip.compress(it.read(), 9, mtime=0)).decode()
    script, style = read("packaging/web/page.js"), read("packaging/web/page.css")
    engine = as_script(read("bindings/javascript/tmpl.mjs")) + read("packaging/web/worker.js")
    parts = {"POLICY": policy(script, style), "STYLE": style, "EXAMPLES": examples(), "ENGINE": engine, "MODULE": module, "SCRIPT": script}
    if any("</script" in parts[it] for it in ("EXAMPLES", "ENGINE", "SCRIPT")):
        sys.exit("what stands in the page would end its script")
    page = re.sub(r"@([A-Z]+)@", lambda it: parts[it[1]], read("packaging/web/page.html"))
    with open(to, "w", encoding="utf-8") as it:
        it.write(page)


def main(words):
    kinds = {"wasm": make_wasm, "page": make_page}
    if len(words) != 3 or words[0] not in kinds:
        sys.exit("usage: make.py wasm MODULE TO | make.py page WASM TO")
    kinds[words[0]](*words[1:])


if __name__ == "__main__":
    main(sys.argv[1:])
