#!/bin/sh
# Runs what the documents show with ./dswp and tools/, and compares. Prints each difference; ends with 1 where there is one.
#
# A transcript is a line `$ ./dswp ..` or `$ tools/..` of a fenced block, the output, and a line `[status N]`. Each row under a head
# `| Text | Output |` is a program's text and what `run` writes for it, with ` / ` between its lines. Each program of
# examples/ and examples/gallery/ writes its NAME.out for its NAME.in, and the same but for the lines of its regions under its
# NAME.plan.
set -u
cd "$(dirname "$0")/.." || exit 1
work=$(mktemp -d) || exit 1
trap 'rm -rf "$work"' EXIT
cat README.md docs/*.md examples/README.md >"$work/documents"
./dswp --prove || exit

# Each transcript as the files N.command and N.shown, each row as N.c and N.row.
awk -v work="$work" '
  function part(end) { return work "/" sprintf("%04d", count) "." end }
  /^```/ { fenced = !fenced; shown = ""; next }
  fenced && /^\$ (\.\/dswp|tools\/)/ { count++; shown = part("shown"); print substr($0, 3) >part("command"); printf "" >shown; next }
  fenced && shown { print >shown; if (/^\[status [0-9]+\]$/) { close(shown); shown = "" }; next }
  fenced { next }
  /^\| Text \| Output \|$/ { table = 1; next }
  table && /^\| `.*` \| `.*` \|$/ {
    count++
    middle = index($0, "` | `")
    printf "%s", substr($0, 4, middle - 4) >part("c")
    print substr($0, middle + 5, length($0) - middle - 7) >part("row")
    next
  }
  !/^\|/ { table = 0 }
' "$work/documents"

total=0 differ=0
compare() {
  total=$((total + 1))
  diff -u "$1" "$2" >"$work/difference" && return
  differ=$((differ + 1))
  printf '%s\n' "$3"
  sed -e 1,2d "$work/difference"
}
for command in "$work"/*.command; do
  [ -e "$command" ] || continue
  { sh "$command" 2>/dev/null; echo "[status $?]"; } >"$work/got"
  compare "${command%.command}.shown" "$work/got" "\$ $(cat "$command")"
done
for program in examples/*.c examples/gallery/*.c; do
  name=${program%.c}
  ./dswp run "$program" "$name.in" >"$work/got" 2>/dev/null
  compare "$name.out" "$work/got" "$program"
  [ -f "$name.plan" ] || continue
  grep -v '^region ' "$name.out" >"$work/wanted"
  ./dswp run "$program" "$name.in" --plan "$name.plan" 2>/dev/null | grep -v '^region ' >"$work/got"
  compare "$work/wanted" "$work/got" "$program under $name.plan"
done
for row in "$work"/*.row; do
  [ -e "$row" ] || continue
  ./dswp run "${row%.row}.c" 2>/dev/null | awk '{ printf "%s%s", between, $0; between = " / " } END { print "" }' >"$work/got"
  compare "$row" "$work/got" "$(cat "${row%.row}.c")"
done
echo "$((total - differ)) of $total as shown"
[ "$total" -gt 0 ] && [ "$differ" -eq 0 ]
