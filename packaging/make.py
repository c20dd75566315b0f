"""Packs the programs that are built, with man pages, completions, templates for quoting and documents: `make.py tar` as a tar, and with the
C library and its header where these are built, as the name says then. `make.py tar static` and `make.py tar aarch64` pack so the static
programs, and those for aarch64 with their library; `make.py deb static` and `make.py deb aarch64` pack these programs as Debian
packages, which then need no other. `make.py wheel` packs the binding for Python with the C library, and `make.py npm` that for JavaScript
with the module of WebAssembly. Each has a bill of materials. All go to `packaging/out`, beside the file SHA256SUMS of them all, of which
SHA256SUMS.asc may be a signature; with FOR_TESTS=1 in the environment, what the tests pack goes to out/tests/packages. They are named by the
version, the tars also by the logic that the program is proved with. `make dist`,
`make deb`, `make wheel` and `make npm` call it once what they pack is built. The same tree gives the same bytes."""
import base64
import collections
import gzip
import hashlib
import json
import os
import re
import shutil
import subprocess
import sys
import tarfile
import tempfile
import time
import zipfile

import bill
import pages

HERE = os.path.dirname(os.path.abspath(__file__))
TOP = os.path.dirname(HERE)
OUT = f"{TOP}/out/tests/packages" if pages.FOR_TESTS else f"{HERE}/out"
LIBRARIES = f"{TOP}/out/tests/lib" if pages.FOR_TESTS else f"{TOP}/bindings/out"
LIBC = "2.34"  # that the program which `make` builds needs
OLDEST = 2, 17  # the oldest C library for which there are wheels
PROGRAMS = ["tmpl", "tmpl-check"]
# The folder of programs besides those that `make` builds, how a tar and Debian name where they run, whether a library is built with them,
# and what changes them.
Port = collections.namedtuple("Port", "folder system architecture has_library objcopy")
PORTS = {
    "static": Port(f"{OUT}/static", "x86_64-linux-static", "amd64", False, "objcopy"),
    "aarch64": Port(f"{OUT}/aarch64", "aarch64-linux", "arm64", True, "aarch64-linux-gnu-objcopy"),
}
ABOUT = "renders templates in the language of Go's text/template"
DESCRIPTION = f"""\
Description: {ABOUT}
 tmpl renders templates in the language of Go's text/template (Go 1.22)
 with data from a JSON file. What it answers depends on its command line
 and its files alone, by a written definition, and a checker proves that
 the program follows it. It is linked statically, for each processor of
 the architecture.
"""
COPYRIGHT = """\
Format: https://www.debian.org/doc/packaging-manuals/copyright-format/1.0/
Upstream-Name: Rilphong

Files: *
Copyright: 2026 the Rilphong maintainers
License: none-chosen
 No licence is chosen yet. That is for the owner to do.
"""

METADATA = """\
Metadata-Version: 2.1
Name: tmpl
Version: {version}
Summary: {about}
Requires-Python: >=3.8
Description-Content-Type: text/markdown

"""

WHEEL = """\
Wheel-Version: 1.0
Generator: rilphong
Root-Is-Purelib: false
Tag: {tag}
"""

CHANGES = """\
tmpl ({version}) unstable; urgency=medium

  * CHANGELOG.md beside this file has what changed.

 -- {maker}  {date}
"""


def told(*words):
    return subprocess.run(words, cwd=TOP, stdout=subprocess.PIPE, check=True).stdout.decode().strip()


def version_by(form, mark):
    """The version by the rules of others: that of a commit before the release has its day, its hash and the mark of a change."""
    if pages.is_released():
        return pages.number()
    day, name, is_changed = pages.commit()
    return pages.number() + form.format(day, name) + mark * is_changed


def seconds():
    """When the commit was made: the time of each file."""
    return int(told("git", "log", "-1", "--format=%ct"))


def maker():
    return told("git", "log", "-1", "--format=%an <%ae>")


def make(*words):
    return ["make", "--no-print-directory", "-s", *words]


def place(folder, prefix, shown, port=None):
    """Installs into a folder, under a prefix, as `make install` does, with pages that show another prefix, and the bill beside them; with
    the programs of a port, if that is asked for."""
    subprocess.run(make("install", f"DESTDIR={folder}", f"PREFIX={prefix}", f"SHOWN_PREFIX={shown}"), cwd=TOP, check=True)
    for name in PROGRAMS:
        program = f"{folder}{prefix}/bin/{name}"
        if port:  # the linker stripped it
            shutil.copy(f"{PORTS[port].folder}/{name}", program)
            note = f"{folder}{prefix}/share/doc/tmpl/BUILD"
            subprocess.run([PORTS[port].objcopy, "--add-section", f".tmpl.build={note}", program], check=True)
        elif shutil.which("strip"):
            subprocess.run(["strip", "--strip-all", "--remove-section=.comment", program], check=True)
        else:
            sys.exit("strip is not there: install binutils")
    libc = None if port else LIBC
    paths = [f"bin/{it}" for it in PROGRAMS]
    bill.write(["tmpl", "tmpl_check"], f"{folder}{prefix}", paths, "share/doc/tmpl/tmpl.spdx.json", seconds(), libc)


def has_library():
    """Whether the C library is built, so that `make lib` has nothing to do."""
    return not subprocess.run([*make("lib"), "-q"], cwd=TOP, stderr=subprocess.DEVNULL, check=False).returncode


def place_library(folder, prefix, port):
    """The same with the C library, its header and what pkg-config reads."""
    subprocess.run(make("install-lib", f"DESTDIR={folder}", f"PREFIX={prefix}"), cwd=TOP, check=True)
    for name in ("libtmpl.a", "libtmpl.so") if port else ():
        shutil.copy(f"{OUT}/{port}/{name}", os.path.realpath(f"{folder}{prefix}/lib/{name}"))
    path = f"{folder}{prefix}/lib/pkgconfig/tmpl.pc"
    with open(path, encoding="utf-8") as it:
        text = it.read()
    with open(path, "w", encoding="utf-8") as it:  # wherever the tar is unpacked
        it.write(text.replace(f"prefix={prefix}\n", "prefix=${pcfiledir}/../..\n"))


def settle(folder):
    """Gives each file and folder the time of the commit, and plain rights."""
    when = seconds()
    for at, folders, files in os.walk(folder, topdown=False):
        for it in files:
            if not os.path.islink(f"{at}/{it}"):
                os.chmod(f"{at}/{it}", 0o755 if at.endswith("/bin") else 0o644)
            os.utime(f"{at}/{it}", (when, when), follow_symlinks=False)
        os.chmod(at, 0o755)
        os.utime(at, (when, when))


def owned_by_root(it):
    it.uid = it.gid = 0
    it.uname = it.gname = "root"
    return it


def tar(port=None):
    """The tar."""
    is_whole = PORTS[port].has_library if port else has_library()
    system = PORTS[port].system if port else "x86_64-linux"
    name = f"tmpl-{pages.version().replace('~', '-')}-{pages.toolchain()[1]}-{system}{'-with-library' * is_whole}"
    with tempfile.TemporaryDirectory() as room:
        place(room, f"/{name}", "/usr/local", port)
        if is_whole:
            place_library(room, f"/{name}", port)
        settle(f"{room}/{name}")
        path = f"{OUT}/{name}.tar.gz"
        with open(path, "wb") as it, gzip.GzipFile("", "wb", 9, it, seconds()) as packed:
            with tarfile.open(fileobj=packed, mode="w", format=tarfile.GNU_FORMAT) as made:
                for at, folders, files in os.walk(f"{room}/{name}"):
                    folders.sort()
                    inside = os.path.relpath(at, room)
                    made.add(at, inside, recursive=False, filter=owned_by_root)
                    for file in sorted(files):
                        made.add(f"{at}/{file}", f"{inside}/{file}", filter=owned_by_root)
    return path


def add_up():
    """Writes the sums of all packages that are there, and removes a signature of other sums."""
    names = sorted(it for it in os.listdir(OUT) if it.endswith((".tar.gz", ".deb", ".whl", ".tgz")))
    text = "".join(f"{hashlib.sha256(bytes_of(f'{OUT}/{it}')).hexdigest()}  {it}\n" for it in names).encode()
    sums = f"{OUT}/SHA256SUMS"
    if not os.path.exists(sums) or bytes_of(sums) != text:
        with open(sums, "wb") as it:
            it.write(text)
        if os.path.exists(f"{sums}.asc"):
            os.remove(f"{sums}.asc")


def pack(path, to):
    """Packs a file as Debian wants manuals and changes: with gzip, and neither its name nor its time."""
    with open(path, "rb") as it, open(to, "wb") as made, gzip.GzipFile("", "wb", 9, made, 0) as packed:
        packed.write(it.read())


def as_debian(room):
    """Moves what `make install` placed to where Debian has it."""
    share = f"{room}/usr/share"
    os.rename(f"{share}/zsh/site-functions", f"{share}/zsh/vendor-completions")
    for page in ("man1/tmpl.1", "man1/tmpl-check.1", "man7/tmpl-language.7"):
        pack(f"{share}/man/{page}", f"{share}/man/{page}.gz")
        os.remove(f"{share}/man/{page}")
    with open(f"{share}/doc/tmpl/copyright", "w", encoding="utf-8") as it:
        it.write(COPYRIGHT)
    changes = f"{share}/doc/tmpl/changelog"
    with open(changes, "w", encoding="utf-8") as it:
        it.write(CHANGES.format(version=pages.version(), maker=maker(), date=told("git", "log", "-1", "--format=%cD")))
    pack(changes, f"{changes}.gz")
    os.remove(changes)


def deb(port):
    """The Debian package."""
    architecture = PORTS[port].architecture
    with tempfile.TemporaryDirectory() as room:
        place(room, "/usr", "/usr", port)
        as_debian(room)
        files = sorted(os.path.join(at, it) for at, _, its in os.walk(room) for it in its)
        size = sum(-(-os.path.getsize(it) // 1024) for it in files)
        os.mkdir(f"{room}/DEBIAN")
        sums = (f"{told('md5sum', it).split()[0]}  {os.path.relpath(it, room)}\n" for it in files)
        with open(f"{room}/DEBIAN/md5sums", "w", encoding="utf-8") as it:
            it.writelines(sums)
        fields = {
            **{"Package": "tmpl", "Version": pages.version(), "Architecture": architecture, "Section": "text", "Priority": "optional"},
            **{"Maintainer": maker(), "Installed-Size": str(size)},
        }
        with open(f"{room}/DEBIAN/control", "w", encoding="utf-8") as it:
            it.write("".join(f"{name}: {value}\n" for name, value in fields.items()) + DESCRIPTION)
        settle(room)
        path = f"{OUT}/tmpl_{pages.version()}_{architecture}.deb"
        environment = {**os.environ, "SOURCE_DATE_EPOCH": str(seconds())}
        words = ["dpkg-deb", "--root-owner-group", "-Zxz", "--build", room, path]
        subprocess.run(words, env=environment, stdout=subprocess.DEVNULL, check=True)
    return path


def recorded(name, held):
    """The line of a file in the list of what a wheel holds."""
    total = base64.urlsafe_b64encode(hashlib.sha256(held).digest()).rstrip(b"=").decode()
    return f"{name},sha256={total},{len(held)}\n"


def bytes_of(path):
    with open(path, "rb") as it:
        return it.read()


def platform_of(library):
    """What a wheel says of where it runs: with the oldest C library that has all that this one takes of it."""
    taken = [tuple(map(int, it)) for it in re.findall(rb"GLIBC_(\d+)\.(\d+)", library)]
    return "manylinux_{}_{}_x86_64".format(*max(taken + [OLDEST]))


def wheel():
    """The binding for Python with the C library, as pip installs it."""
    name = version_by(".dev{}+{}", ".changed")
    about = f"tmpl-{name}.dist-info"
    page = bytes_of(f"{TOP}/bindings/python/README.md")
    library = bytes_of(f"{LIBRARIES}/libtmpl.so")
    tag = f"py3-none-{platform_of(library)}"
    files = {
        "tmpl/__init__.py": bytes_of(f"{TOP}/bindings/python/tmpl.py"),
        "tmpl/py.typed": b"",
        "tmpl/libtmpl.so": library,
        f"{about}/METADATA": METADATA.format(version=name, about=ABOUT).encode() + page,
        f"{about}/WHEEL": WHEEL.format(tag=tag).encode(),
    }
    oldest = "{}.{}".format(*OLDEST)
    files[f"{about}/sboms/tmpl.spdx.json"] = bill.bill(["tmpl_c"], LIBRARIES, ["libtmpl.so"], seconds(), oldest).encode()
    record = f"{about}/RECORD"
    files[record] = ("".join(recorded(*it) for it in files.items()) + f"{record},,\n").encode()
    path = f"{OUT}/tmpl-{name}-{tag}.whl"
    with zipfile.ZipFile(path, "w", zipfile.ZIP_DEFLATED) as made:
        for file, held in files.items():
            made.writestr(zipfile.ZipInfo(file, time.gmtime(seconds())[:6]), held, zipfile.ZIP_DEFLATED)
    return path


def npm():
    """The module of WebAssembly with the binding for JavaScript, as npm installs it."""
    source = f"{TOP}/bindings/javascript"
    with tempfile.TemporaryDirectory() as room:
        for name in ("tmpl.mjs", "node.mjs", "tmpl.d.ts", "README.md"):
            shutil.copy(f"{source}/{name}", room)
        shutil.copy(f"{OUT}/web/tmpl.wasm", room)
        about = json.loads(bytes_of(f"{source}/package.json"))
        about["version"] = version_by("-{}.g{}", ".changed")
        with open(f"{room}/package.json", "w", encoding="utf-8") as it:
            json.dump(about, it, indent=2)
        words = ["npm", "pack", "--silent", "--offline", "--ignore-scripts", f"--cache={room}/.cache", f"--pack-destination={OUT}"]
        packed = subprocess.run(words, cwd=room, stdout=subprocess.PIPE, check=True, text=True).stdout.split()
    return f"{OUT}/{packed[-1]}"


def main(words):
    kinds = {"tar": tar, "deb": deb, "wheel": wheel, "npm": npm}
    if words not in [["tar"], ["wheel"], ["npm"], *([kind, port] for kind in ("tar", "deb") for port in PORTS)]:
        sys.exit("usage: make.py tar | tar static|aarch64 | deb static|aarch64 | wheel | npm")
    if not shutil.which("git") or subprocess.run(["git", "rev-parse"], cwd=TOP, stderr=subprocess.DEVNULL, check=False).returncode:
        sys.exit("packages are named by the version and the commit: this is no checkout of Git, or Git is not there")
    os.makedirs(OUT, exist_ok=True)
    path = kinds[words[0]](*words[1:])
    add_up()
    print(path)


if __name__ == "__main__":
    main(sys.argv[1:])
