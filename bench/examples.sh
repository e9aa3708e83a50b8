#!/usr/bin/env bash
# Times each program of examples/ and of loops/ on 65,536 words, reading them and writing the answer included: under dswp
# as a pipeline of its least plan, and without its mark by the sequential machine; under CPython, and as plain C by tcc and
# by gcc -O2. string_wave isn't, since Python rounds its negative quotients in another way; nor is a program with a break
# without its mark, since only a marked loop may have one. Each time is the least of nine runs, less that of an empty
# program under the same runner. Ends with 1 where two answers differ.
# Needs gcc, tcc and python3.
set -euo pipefail
. "$(dirname "$0")/common.sh"
need_dswp
python=$(python3 -c 'import sys; print(sys.executable)')   # not a wrapper, whose own start takes longer than a run
runners='pipeline unmarked python tcc gcc'

# Makes what each runner takes of a program.
prepare() {
  cp "$1" "$work/pipeline.c"
  sed '/#pragma dswp/d' "$1" >"$work/unmarked.c"
  "$top/examples/as_python.py" "$1" >"$work/python.py"
  "$top/examples/as_c.sh" "$1" >"$work/plain.c"
  gcc -O2 -w -o "$work/gcc" "$work/plain.c"
  tcc -w -o "$work/tcc" "$work/plain.c"
}
run() {
  case $1 in
    pipeline | unmarked) "$dswp" run "$work/$1.c" "$work/words" --fuel 1000000000 ;;
    python) "$python" "$work/python.py" <"$work/words" ;;
    *) "$work/$1" <"$work/words" ;;
  esac
}

declare -A start
printf 'int main() { }\n' >"$work/empty.c"
: >"$work/words"
prepare "$work/empty.c"
for runner in $runners; do start[$runner]=$(least run $runner); done

machine
for program in "$top"/examples/*.c "$here"/loops/*.c; do
  name=$(basename "$program" .c)
  [ "$name" = string_wave ] && continue
  many_words "$name" >"$work/words"
  prepare "$program"
  line=$name
  for runner in $runners; do
    if [ $runner = unmarked ] && grep -q 'break;' "$program"; then
      line="$line -"
      continue
    fi
    run $runner | sed '/^region /d; /^end /d' >"$work/$runner.answer"
    cmp "$work/pipeline.answer" "$work/$runner.answer"
    line="$line $(net "$(least run $runner)" "${start[$runner]}")"
  done
  echo "$line"
done | awk '
  NR == 1 { printf "%-18s %10s %10s %18s %18s %18s\n", "milliseconds", "pipeline", "unmarked", "CPython", "tcc", "gcc -O2" }
  {
    printf "%-18s %10.2f %10s", $1, $2 / 1e6, $3 == "-" ? "-" : sprintf("%.2f", $3 / 1e6)
    for (one = 2; one <= 3; one++) rows[one] += $one != "-"
    for (k = 4; k <= NF; k++) {
      printf " %8.2f (%7s)", $k / 1e6, $3 == "-" ? "-" : sprintf("%.2f", $3 / $k)
      for (one = 2; one <= 3; one++) if ($one != "-") product[one, k] += log($one / $k)
    }
    print ""
  }
  END {
    for (one = 3; one >= 2; one--) {
      printf "%-40s", "geometric mean, " (one == 3 ? "unmarked" : "pipeline")
      for (k = 4; k <= NF; k++) printf " %8s (%7.2f)", "", exp(product[one, k] / rows[one])
      print ""
    }
    print "In brackets: how many times as long the unmarked program takes, and in the last line the pipeline."
  }'
