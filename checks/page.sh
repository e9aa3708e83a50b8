#!/bin/sh
# Looks whether the manual page is set without a warning, and whether it has each verb and each option that help lists.
# Prints what is missing; ends with 1 where something is.
set -u
cd "$(dirname "$0")/.." || exit 1
page=$(mktemp) || exit 1
trap 'rm -f "$page"' EXIT
missing=0 found=0
MANWIDTH=120 man --warnings -l docs/dswp.1 2>"$page" >/dev/null
if [ -s "$page" ]; then
  cat "$page"
  missing=1
fi
MANWIDTH=120 man -l docs/dswp.1 | sed 's/.\x08//g' >"$page"
verbs=$(./dswp --help 2>&1 >/dev/null | sed -n 's/^  \([a-z][a-z]*\)  *[A-Z].*/\1/p')
for verb in $verbs; do
  for word in "$verb" $(./dswp "$verb" --help 2>&1 >/dev/null | sed -n 's/^ .*\(--[a-z][a-z]*\).*/\1/p'); do
    found=$((found + 1))
    grep -qwe "$word" "$page" && continue
    echo "$word isn't on the page"
    missing=1
  done
done
echo "$found words of help looked up"
[ "$found" -gt 10 ] && [ "$missing" -eq 0 ]
