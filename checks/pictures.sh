#!/usr/bin/env bash
# Draws the least plans of the programs that docs/pictures/ has pictures of.
#
#   checks/pictures.sh            compares with docs/pictures/NAME.dot, and ends with 1 where one differs
#   checks/pictures.sh --write    writes docs/pictures/NAME.dot, and NAME.svg by Graphviz
set -eu
cd "$(dirname "$0")/.."
./dswp --prove
work=$(mktemp -d)
trap 'rm -rf "$work"' EXIT

total=0 differ=0
for picture in docs/pictures/*.dot; do
  name=$(basename "$picture" .dot)
  tools/explain.py "examples/$name.c" --dot >"$work/$name.dot"
  total=$((total + 1))
  if [ "${1-}" = --write ]; then
    cp "$work/$name.dot" "$picture"
    dot -Tsvg "$picture" >"${picture%.dot}.svg"
  elif ! diff -u "$picture" "$work/$name.dot"; then
    differ=$((differ + 1))
  fi
done
echo "$((total - differ)) of $total pictures are the plans'"
[ "$differ" = 0 ]
