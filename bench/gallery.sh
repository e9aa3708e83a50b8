#!/usr/bin/env bash
# Times the programs of examples/gallery/ on their long inputs, reading them and writing the answers included: without its
# mark by the sequential machine, as plain C by gcc -O2, and as a pipeline with 1, 2 and 3 workers, of the least plan, of the
# least plan by a profile of the small input, and of the program's own plan where it has one. Beside them stands how many
# iterations were executed again. grid_histogram has three inputs, of which its own plan has more and more executed again.
# Each time is the least of three runs, less that of an empty program under the same runner; in brackets stands how many times
# as fast as the unmarked program it is. Ends with 1 where two answers differ.
#
#   bench/gallery.sh          all of them, in some ten minutes
#   bench/gallery.sh NAME..   those that are named
#
# Needs gcc and python3.
set -euo pipefail
. "$(dirname "$0")/common.sh"
need_dswp
gallery=$top/examples/gallery
runs=3

alone() { "$dswp" run "$work/unmarked.c" "$work/words" --fuel 1000000000; }
plain() { "$work/plain" <"$work/words"; }
pipeline() { "$dswp" run "$program" "$work/words" --fuel 1000000000 --workers "$@"; }

# Makes what each runner takes of a program.
prepare() {
  sed '/#pragma dswp/d' "$1" >"$work/unmarked.c"
  "$top/examples/as_c.sh" "$1" >"$work/plain.c"
  gcc -O2 -w -o "$work/plain" "$work/plain.c"
}

# The answer but for its regions, in the file that is named; it has to be the unmarked program's.
keep_answer() { sed '/^region /d' >"$1" && cmp "$work/alone.answer" "$1"; }

# A line of the table: the plan's name, and the options that name it.
under() {
  local workers line
  for workers in 1 2 3; do
    pipeline $workers "${@:2}" 2>/dev/null >"$work/answer"
    keep_answer "$work/pipeline.answer" <"$work/answer"
    line="${line-} $(net "$(least pipeline $workers "${@:2}")" "$empty")"
  done
  echo "$1 $(sed -n 's/^region 1 .* recovered \([0-9]*\).*/\1/p' "$work/answer") $unmarked $line" |
    awk '{ sub("_", " ", $1); printf "  %-20s %17d", $1, $2; for (k = 4; k <= 6; k++) printf " %10.2f (%5.2f)", $k / 1e6, $3 / $k; print "" }'
}

# The lines of a program with one of its inputs.
table() {
  program=$gallery/$1.c
  "$gallery/inputs.py" "$1" "$2" >"$work/words"
  prepare "$program"
  alone >"$work/alone.answer"
  plain | tee "$work/answer" | keep_answer "$work/plain.answer"
  unmarked=$(net "$(least alone)" "$empty")
  printf '%-22s %8d iterations, unmarked %s ms, gcc -O2 %s ms\n' "$1${3-}" "$(sed -n 's/^region 1 iterations \([0-9]*\) .*/\1/p' "$work/answer")" \
    "$(ratio "$unmarked" 1000000)" "$(ratio "$(net "$(least plain)" "$empty_plain")" 1000000)"
  "$dswp" profile "$program" "$gallery/$1.in" >"$work/profile" 2>/dev/null
  under least
  under by_profile --profile "$work/profile"
  if [ -f "$gallery/$1.plan" ]; then under own --plan "$gallery/$1.plan"; fi
}

printf 'int main() { }\n' >"$work/empty.c"
: >"$work/words"
prepare "$work/empty.c"
empty=$(least alone)
empty_plain=$(least plain)

machine
printf '%-22s %17s %18s %18s %18s\n' 'milliseconds' 'executed again' '1 worker' '2 workers' '3 workers'
for source in "$gallery"/*.c; do
  name=$(basename "$source" .c)
  case " $* " in "  " | *" $name "*) ;; *) continue ;; esac
  table "$name" long
  if [ "$name" = grid_histogram ]; then
    table "$name" crowded ', crowded'
    table "$name" hot ', hot'
  fi
done
