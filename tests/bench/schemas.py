"""Has tmpl-check read the JSON Schemas that Debian's packages have, and holds it to the cases of the JSON Schema test suite.

    schemas.py [FOLDER]

The packages are fetched by `apt-get download` and unpacked into FOLDER, or into one that is removed afterwards. Of each schema it says
whether it is read, and if not, why. Of each case of the suite it asks for a counterexample: the value of the case must conform where it is
shown. A template that fails over a value that conforms must not be accepted. Data that conforms must not be reported not to, and data that does
not must be reported, but by `pattern` and `format`. TMPL and TMPL_CHECK name other builds."""
import collections
import json
import os
import subprocess
import sys
import tempfile

from tests.lib import harness

PACKAGES = (
    "ansible-lint cloud-init docker-compose node-ajv node-babel7 node-har-schema node-json-schema node-schema-utils python3-altair python3-asdf "
    "python3-ironic python3-jsonschema python3-nbformat python3-swagger-spec-validator snapcraft meson yamllint webpack npm libvirt-daemon buildbot"
).split()
SUITE = "json-schema-test-suite"
DRAFTS = {"draft4": "http://json-schema.org/draft-04/schema#", "draft6": "http://json-schema.org/draft-06/schema#", "draft7": "http://json-schema.org/draft-07/schema#",
          "draft2019-09": "https://json-schema.org/draft/2019-09/schema", "draft2020-12": "https://json-schema.org/draft/2020-12/schema"}
NOWHERE = '{{template "nowhere"}}'


def fetch(folder):
    """Unpacks those of the packages that are there."""
    for name in [*PACKAGES, SUITE]:
        at = f"{folder}/{name}"
        if not os.path.isdir(at):
            os.makedirs(at)
            if subprocess.run(["apt-get", "download", name], cwd=at, capture_output=True).returncode:
                print(f"{name}: not there")
            for file in os.listdir(at):
                subprocess.run(["dpkg", "-x", file, "."], cwd=at, check=True)


def files(folder):
    for top, _, names in sorted(os.walk(folder)):
        for name in sorted(names):
            path = f"{top}/{name}"
            if name.endswith((".json", ".schema")) and not os.path.islink(path):
                yield path


def loaded(path):
    try:
        with open(path, encoding="utf-8") as it:
            return json.load(it)
    except ValueError:
        return None


def is_schema(value):
    return isinstance(value, dict) and isinstance(value.get("$schema"), str) and "json-schema.org" in value["$schema"]


def check(folder, schema, template):
    """The status of tmpl-check, and its lines."""
    with open(f"{folder}/t", "w", encoding="utf-8") as it:
        it.write(template)
    ended = subprocess.run([harness.CHECKER, "--schema", schema, f"{folder}/t"], capture_output=True, timeout=harness.SECONDS, text=True)
    return ended.returncode, ended.stdout.splitlines()


def read_all(folder, room):
    """Whether each schema is read."""
    read = total = 0
    for path in files(folder):
        if f"/{SUITE}/" in path or not is_schema(loaded(path)):
            continue
        status, lines = check(room, path, "text")
        errors = [line.partition(": error: ")[2] for line in lines if ": error: " in line]
        total += 1
        read += not status
        print(f"{os.path.relpath(path, folder)}: {errors[0] if errors else 'read' if not status else status}")
    print(f"{read} of {total} are read")


def failing(value):
    """A template that fails over this value."""
    if isinstance(value, dict):
        return '{{index . "nothing is under this key" "x"}}'
    return "{{.b}}" if isinstance(value, list) or value is None else "{{range $i, $e := .}}{{end}}{{.b}}"


def with_value(schema, value):
    """The schema with this value as its only one; none where a schema cannot say so beside what it says."""
    if schema is True:
        return {"enum": [value]}
    if not isinstance(schema, dict) or "enum" in schema or "const" in schema or "$ref" in schema:
        return None
    return {"enum": [value], **schema}


def has_float(value):
    if isinstance(value, dict):
        return any(map(has_float, value.values()))
    return any(map(has_float, value)) if isinstance(value, list) else isinstance(value, float) or isinstance(value, int) and abs(value) >= 1 << 63


def cases(folder):
    for path in files(f"{folder}/{SUITE}"):
        draft = path.split("/")[-2]
        if draft in DRAFTS:
            for group in loaded(path):
                for case in group["tests"]:
                    title = f"{draft}/{os.path.basename(path)}: {group['description']}: {case['description']}"
                    yield title, DRAFTS[draft], group["schema"], case["data"], case["valid"]


def held(room, draft, schema, value):
    """What is reported of a value as data of a schema: none where nothing is, or whether it is a place at which it does not conform."""
    for name, content in (("s", {"$schema": draft, **schema} if isinstance(schema, dict) else schema), ("d", value), ("t", "text")):
        with open(f"{room}/{name}", "w", encoding="utf-8") as it:
            it.write(content) if name == "t" else json.dump(content, it)
    ended = subprocess.run([harness.CHECKER, "--schema", "s", "--data", "d", "t"], cwd=room, capture_output=True, timeout=harness.SECONDS, text=True)
    lines = [line for line in ended.stdout.splitlines() if line.startswith("d:") and ": error: " in line]
    return any("it is not seen" not in line for line in lines) if lines else None


def hold_to_suite(folder, room):
    """Each case of the suite."""
    count = collections.Counter()
    for title, draft, schema, value, is_valid in cases(folder):
        if has_float(value) or isinstance(schema, dict) and "$schema" in schema and schema["$schema"] != draft:
            continue
        count["cases"] += 1
        path = f"{room}/s"

        def ask(asked, template):
            with open(path, "w", encoding="utf-8") as it:
                json.dump({"$schema": draft, **asked} if isinstance(asked, dict) else asked, it)
            return check(room, path, template)

        one = with_value(schema, value)
        if one is not None:
            _, lines = ask(one, NOWHERE)
            shown = any(": note: fails for " in line for line in lines)
            count["values asked for that conform"] += is_valid
            count["values shown"] += shown
            if shown and not is_valid:
                count["WRONG"] += 1
                print(f"WRONG, shown and not valid: {title}: {json.dumps(schema)} {json.dumps(value)}")
        status, lines = ask(schema, failing(value))
        is_read = not any("schema not understood" in line for line in lines)
        count["schemas not read"] += not is_read
        if not is_read:
            print(f"not read: {title}: {lines[0]}")
        reported = held(room, draft, schema, value) if is_read else None
        is_texts = any(f'"{keyword}"' in json.dumps(schema) for keyword in ("pattern", "format"))
        count["data reported that does not conform"] += reported is True and not is_valid
        count["data of which it is not seen"] += reported is False
        if is_valid and reported or is_read and not is_valid and reported is None and not is_texts:
            count["WRONG"] += 1
            print(f"WRONG, {'reported' if is_valid else 'not reported'}: {title}: {json.dumps(schema)} {json.dumps(value)}")
        if is_valid and status == 0:
            count["WRONG"] += 1
            print(f"WRONG, accepted: {title}: {json.dumps(schema)} {json.dumps(value)}")
        count["templates refused over values that conform"] += is_valid and status == 1 and is_read
        count["templates accepted over values that do not"] += not is_valid and status == 0
    print(dict(count))
    return not count["WRONG"]


def main():
    with tempfile.TemporaryDirectory() as room:
        folder = sys.argv[1] if len(sys.argv) > 1 else f"{room}/packages"
        os.makedirs(folder, exist_ok=True)
        fetch(folder)
        read_all(folder, room)
        return 0 if hold_to_suite(folder, room) else 1


if __name__ == "__main__":
    sys.exit(main())
