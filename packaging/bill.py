"""The bill of materials of a package, in SPDX 2.3: what is packed, the crates that it is made of, the kit and the logic of its proofs,
and the C library that it needs, or that is linked into it."""
import hashlib
import json
import os
import time

import pages

NO_LICENCE = "NOASSERTION"  # no licence is chosen yet, and the kit names none


def uses():
    """The crates of the repository, each with those that it uses, as crates.txt has them."""
    found = {}
    with open(f"{pages.TOP}/crates.txt", encoding="utf-8") as it:
        for line in it:
            name, colon, those = line.partition("#")[0].partition(":")
            if colon:
                found[name.split()[0]] = those.split()
    return found


def below(crates):
    """Crates and all that they use, directly or through others; of the kit's crates those alone that crates.txt names."""
    known, found, left = uses(), [], [*crates]
    while left:
        name = left.pop()
        if name not in found:
            found.append(name)
            left += known.get(name, [])
    return sorted(found)


def package(name, version, **more):
    told = {"SPDXID": f"SPDXRef-{name.replace('_', '-')}", "name": name, "versionInfo": version, "downloadLocation": "NOASSERTION"}
    licence = {"licenseConcluded": NO_LICENCE, "licenseDeclared": NO_LICENCE, "copyrightText": NO_LICENCE}
    return {**told, "filesAnalyzed": False, **licence, **more}


def file(root, path):
    with open(f"{root}/{path}", "rb") as it:
        held = it.read()
    sums = [{"algorithm": name.upper(), "checksumValue": hashlib.new(name, held).hexdigest()} for name in ("sha1", "sha256")]
    told = {"SPDXID": f"SPDXRef-file-{path.replace('/', '-').replace('_', '-')}", "fileName": f"./{path}", "checksums": sums}
    return {**told, "licenseConcluded": NO_LICENCE, "copyrightText": NO_LICENCE}


def bill(crates, root, paths, when, libc):
    """The text of the bill of a package that has these files, made of crates, at this time."""
    version = pages.version()
    kit, logic = pages.toolchain()
    known = uses()
    parts = [it for it in below(crates) if it not in crates]
    packed = package("tmpl", version, comment=f"proved by the logic {logic}")
    ours = [package(it, version, comment="a crate of this repository") for it in parts if it in known]
    kits = [package(it, kit, comment="a crate of the kit, with those that it uses") for it in parts if it not in known]
    system = package("glibc", f">= {libc}", comment="of the system") if libc else package("glibc", "NOASSERTION", comment="linked in")
    tools = [package("rattle-kit", kit, comment=f"checker and compilers; logic {logic}"), system]
    files = [file(root, it) for it in paths]
    relations = [("SPDXRef-DOCUMENT", "DESCRIBES", "SPDXRef-tmpl"), ("SPDXRef-rattle-kit", "BUILD_TOOL_OF", "SPDXRef-tmpl")]
    relations += [("SPDXRef-tmpl", "DEPENDS_ON" if libc else "STATIC_LINK", "SPDXRef-glibc")]
    relations += [("SPDXRef-tmpl", "CONTAINS", it["SPDXID"]) for it in [*ours, *kits, *files]]
    told = {
        **{"spdxVersion": "SPDX-2.3", "dataLicense": "CC0-1.0", "SPDXID": "SPDXRef-DOCUMENT", "name": f"tmpl-{version}"},
        "documentNamespace": f"urn:rilphong:tmpl:{version}:{logic}:{'+'.join(crates)}",
        "creationInfo": {"created": time.strftime("%Y-%m-%dT%H:%M:%SZ", time.gmtime(when)), "creators": ["Tool: rilphong-packaging"]},
        **{"packages": [packed, *ours, *kits, *tools], "files": files},
        "relationships": [dict(zip(("spdxElementId", "relationshipType", "relatedSpdxElement"), it)) for it in relations],
    }
    return json.dumps(told, indent=1) + "\n"


def write(crates, root, paths, where, when, libc):
    os.makedirs(os.path.dirname(f"{root}/{where}"), exist_ok=True)
    with open(f"{root}/{where}", "w", encoding="utf-8") as it:
        it.write(bill(crates, root, paths, when, libc))
