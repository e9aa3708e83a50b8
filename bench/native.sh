#!/usr/bin/env bash
# Times the examples and loops without marks on 65,536 words: in native code that is proved, as plain C by gcc -O2 that traps
# where the language faults, by tcc, and under dswp's sequential machine; and the geometric means of the quotients. Each time
# is the least of nine runs, less that of an empty program under the same runner. A second line has the means of times less that
# of an empty program on the same words, so that reading them is no part. A program that one runner is through with in less than
# a twentieth of a millisecond counts for no mean. The native code of all of them stands in one program (native/together.py),
# which runs what `dswp build` makes of each. Ends with 1 where two answers differ.
#
#   bench/native.sh          all of them; what isn't built yet takes some ten minutes for each ten programs first
#   bench/native.sh NAME..   those that are named
#
# Needs gcc, tcc and python3.
set -euo pipefail
. "$(dirname "$0")/common.sh"
need_dswp
traps='-fsanitize=signed-integer-overflow,integer-divide-by-zero,bounds -fsanitize-undefined-trap-on-error'

# Makes what each runner but the native one takes of a program without marks.
prepare() {
  "$top/examples/as_c.sh" "$work/$1.c" | sed '/printf("region/d;/left_early) printf/d;s/printf("\\nend done/printf("end done/' >"$work/$1.plain.c"
  # shellcheck disable=SC2086
  gcc -w -O2 $traps -o "$work/$1.gcc" "$work/$1.plain.c"
  tcc -w -o "$work/$1.tcc" "$work/$1.plain.c"
}

run() {
  case $1 in
    native) "$work/native" run "$work/$2.c" "$work/words" --fuel 1000000000 ;;
    machine) "$dswp" run "$work/$2.c" "$work/words" --fuel 1000000000 ;;
    *) "$work/$2.$1" <"$work/words" ;;
  esac
}

names=()
for program in "$top"/examples/*.c "$top"/examples/gallery/*.c "$top"/bench/loops/*.c; do
  name=$(basename "$program" .c)
  grep -q 'break;' "$program" && continue   # an early exit stands in a marked loop alone
  [ $# -eq 0 ] || [[ " $* " == *" $name "* ]] || continue
  sed '/#pragma dswp/d' "$program" >"$work/$name.c"
  names+=("$name")
done
(cd "$work" && python3 -B "$top/native/together.py" native "${names[@]/%/.c}")

declare -A start
printf 'int main() { }\n' >"$work/empty.c"
: >"$work/words"
prepare empty
for runner in native gcc tcc machine; do start[$runner]=$(least run $runner empty); done

machine
printf '%-18s %10s %10s %10s %10s\n' milliseconds native 'gcc -O2' tcc machine
for name in "${names[@]}"; do
  many_words "$name" >"$work/words"
  prepare "$name"
  line=$name
  bare=$name
  run machine "$name" >"$work/answer"
  for runner in native gcc tcc machine; do
    run $runner "$name" | cmp - "$work/answer"
    time=$(least run $runner "$name")
    line="$line $(net "$time" "${start[$runner]}")"
    bare="$bare $(net "$time" "$(least run $runner empty)")"
  done
  echo "$line"
  echo "$bare" >>"$work/bare"
done | tee "$work/times" | awk '{ printf "%-18s %10.2f %10.2f %10.2f %10.2f\n", $1, $2 / 1e6, $3 / 1e6, $4 / 1e6, $5 / 1e6 }'

# The geometric means of the quotients of the times in a file.
means() {
  awk '$2 > 5e4 && $3 > 5e4 && $4 > 5e4 && $5 > 5e4 { gcc += log($2 / $3); tcc += log($2 / $4); machine += log($5 / $2); n++ }
    END { printf "native takes %.2f times gcc, %.2f times tcc; the machine takes %.2f times native", exp(gcc / n), exp(tcc / n), exp(machine / n)
      printf " (geometric means of %d of %d)\n", n, NR }' "$1"
}
means "$work/times"
echo "without reading the words, $(means "$work/bare")"
