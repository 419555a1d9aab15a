#!/usr/bin/env bash
# Puts the built program and its manual page under PREFIX, or in a temporary folder if unsaid, by
# the lines of docs/use/install.md, and looks whether what was put there works: the program plays
# each example as its text says, and the page is found and has no fault.
#   bench/try install [PREFIX [PROGRAM]]
set -euo pipefail
top="$(cd "$(dirname "$0")/.." && pwd)"
cd "$top"
built=crates/linx_sim/out/linx_sim
program="$(realpath -m "${2:-$built}")"
[ -x "$program" ] || { echo "no program at $program" >&2; exit 1; }
if [ $# -gt 0 ]; then
    prefix="$(realpath -m "$1")"
else
    prefix="$(mktemp -d)"
    trap 'rm -rf "$prefix"' EXIT
fi
lines="$(sed -n '/^```sh$/,/^```$/p' docs/use/install.md | grep '^install ')"
[ "$(wc -l <<< "$lines")" = 2 ] || { echo "docs/use/install.md has other lines" >&2; exit 1; }
prefix="$prefix" bash -euc "${lines//$built/$program}"
bash examples/run.sh "$prefix/bin/linx_sim"
page="$(cd / && man -M "$prefix/share/man" -w linx_sim)"
cmp "$page" docs/use/linx_sim.1
if command -v mandoc > /dev/null; then
    mandoc -T lint -W warning "$page"
fi
echo "installed under $prefix: the program, and $page"
