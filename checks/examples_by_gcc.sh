#!/usr/bin/env bash
# Runs each program of examples/ and of examples/gallery/ as plain C, compiled by gcc with its sanitizer of undefined
# behaviour, on its input. The gallery's inputs are made by inputs.py, and are compared with what it makes.
#
#   checks/examples_by_gcc.sh            compares with NAME.in and NAME.out, and ends with 1 where one differs
#   checks/examples_by_gcc.sh --write    writes the gallery's NAME.in, and each NAME.out
set -eu
cd "$(dirname "$0")/../examples"
work=$(mktemp -d)
trap 'rm -rf "$work"' EXIT

total=0 differ=0
# Compares a file with what was made, or takes it over.
compare() {
  if [ "$3" = --write ]; then
    cp "$2" "$1"
  elif ! diff -u "$1" "$2"; then
    return 1
  fi
}
for program in *.c gallery/*.c; do
  name=${program%.c}
  good=1
  if [ "$name" != "${name#gallery/}" ]; then
    gallery/inputs.py "${name#gallery/}" >"$work/in"
    compare "$name.in" "$work/in" "${1-}" || good=0
  fi
  ./as_c.sh "$program" >"$work/plain.c"
  gcc -std=gnu99 -O1 -fsanitize=undefined -fno-sanitize-recover=all -o "$work/plain" "$work/plain.c"
  "$work/plain" <"$name.in" >"$work/out"
  compare "$name.out" "$work/out" "${1-}" || good=0
  total=$((total + 1))
  differ=$((differ + 1 - good))
done
echo "$((total - differ)) of $total outputs are gcc's"
[ "$differ" = 0 ]
