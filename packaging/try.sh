#!/usr/bin/env bash
# Installs a Debian package into a root of its own, runs what it placed, removes it, and looks whether a file is left.
# Without the rights of root it does so by fakeroot, and what is for aarch64 it runs by QEMU.
set -euo pipefail
package=$(realpath "$1")
if [ "$(id -u)" != 0 ] && [ -z "${FAKEROOTKEY:-}" ]; then
    exec fakeroot "$0" "$@"
fi
room=$(mktemp -d)
trap 'rm -rf "$room"' EXIT
dpkg="dpkg --root=$room --force-not-root --force-bad-path --log=/dev/null"
mkdir -p "$room/var/lib/dpkg/updates" "$room/var/lib/dpkg/info"
: > "$room/var/lib/dpkg/status"
architecture=$(dpkg-deb --field "$package" Architecture)
emulator=
if [ "$architecture" != "$(dpkg --print-architecture)" ]; then
    printf '%s\n' "$(dpkg --print-architecture)" "$architecture" > "$room/var/lib/dpkg/arch"
    emulator=qemu-aarch64
fi
$dpkg --install "$package" > /dev/null
cd "$room"
printf 'Hello, {{.name}}!\n' > hello.tmpl
printf '{"name":"Ada"}' > data.json
test "$($emulator usr/bin/tmpl --data data.json hello.tmpl)" = 'Hello, Ada!'
printf '"it'\''s"' > text.json
printf '{{template "sh" .}}' > quote.tmpl
test "$($emulator usr/bin/tmpl --data text.json quote.tmpl usr/share/tmpl/quotes/quotes.tmpl)" = "'it'\\''s'"
printf '{{name}}' > wrong.tmpl
test "$($emulator usr/bin/tmpl-check wrong.tmpl)" = 'wrong.tmpl:1:1: error: action not understood: no function "name": write .name'
for program in tmpl tmpl-check; do
    grep -aoE 'tmpl [0-9][0-9.]*[~ ].* (proved by|for tests alone, beside) .*' usr/bin/$program | cmp - usr/share/doc/tmpl/BUILD
done
python3 -c 'import json; json.load(open("usr/share/doc/tmpl/tmpl.spdx.json"))'
grep -q '/usr/share/tmpl/quotes' usr/share/doc/tmpl/docs/COMMAND.md
for program in tmpl tmpl-check; do
    MANWIDTH=80 man -l usr/share/man/man1/$program.1.gz > page && grep -q SYNOPSIS page
    (source usr/share/bash-completion/completions/$program && complete -p $program > /dev/null)
    test -f usr/share/zsh/vendor-completions/_$program
done
$dpkg --purge "tmpl:$architecture" > /dev/null
left=$(find usr -type f 2> /dev/null || true)
if [ -n "$left" ]; then
    echo "it left $left" >&2
    exit 1
fi
echo "1 passed, 0 failed"
