#!/usr/bin/env bash
# Installs a wheel into an environment of its own, runs what it placed, removes it, and looks whether a file is left.
set -euo pipefail
wheel=$(realpath "$1")
room=$(mktemp -d)
trap 'rm -rf "$room"' EXIT
python3 -m venv "$room"
cd "$room"
unset LIBTMPL PYTHONPATH
bin/pip --quiet --disable-pip-version-check install --no-index "$wheel"
render='import tmpl; print(tmpl.render({"hello.tmpl": "Hello, {{.name}}!"}, "hello.tmpl", {"name": "Ada"}))'
test "$(bin/python -c "$render")" = 'Hello, Ada!'
bin/pip --quiet --disable-pip-version-check uninstall --yes tmpl
left=$(find . -path '*/site-packages/tmpl*')
if [ -n "$left" ]; then
    echo "it left $left" >&2
    exit 1
fi
echo "1 passed, 0 failed"
