#!/bin/sh
# Draws the policies of two certificates with a program and Graphviz: docs/tire.svg and docs/triangle.svg.
#
#     examples/pictures.sh ./ppddl_plan
set -eu
[ $# -eq 1 ] || { echo "usage: examples/pictures.sh PROGRAM" >&2; exit 2; }
program=$(cd "$(dirname "$1")" && pwd)/$(basename "$1")
cd "$(dirname "$0")"
work=$(mktemp -d)
trap 'rm -rf "$work"' EXIT
"$program" draw tire.ppddl --penalty 100 --cert tire.cert --into "$work/tire.dot"
"$program" solve triangle-2.ppddl --workers 1 --cert "$work/triangle.cert" >/dev/null
"$program" draw triangle-2.ppddl --cert "$work/triangle.cert" --into "$work/triangle.dot"
for name in tire triangle; do
    dot -Tsvg "$work/$name.dot" >"../docs/$name.svg"
done
