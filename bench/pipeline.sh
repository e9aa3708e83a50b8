#!/usr/bin/env bash
# Times regions that run as pipelines, in one run on this machine:
#   the generator's loop over 65,536 words beside oneTBB's parallel_pipeline with the same stages (pipeline_tbb.cpp);
#   a replicated stage of some two thousand operators an iteration, by 1, 2 and 3 workers, beside the same loop unmarked:
#   in an inner loop, with three words for each six operators, which stages and the judge go through as well, for twenty,
#   and for sixty; and in statements one behind the other, with a word for each sixty-one;
#   two hundred iterations of 82,000 operators each, in an inner loop, without a plan that is named;
#   a loop beside a memory of 1,000 cells and of 65,536.
# Each time is the least of nine runs, less the time of an empty program under the same runner; the tables' are less the
# time of the same program on an empty input, which writes as many values.
# Needs g++ and oneTBB (Debian: libtbb-dev).
set -euo pipefail
. "$(dirname "$0")/common.sh"
need_dswp
g++ -O2 -std=c++17 -o "$work/tbb" "$here/pipeline_tbb.cpp" -ltbb
cd "$work"
printf 'int main() { }\n' >empty.c
: >empty.in
plan() { printf 'plan 2\nregion 1 words 4096\n'; printf '%s\n' "$@"; printf 'end\n'; }
machine
nothing=$(least "$dswp" run empty.c)

words 65536 65536 >words.in
generators_loop >digits.c
plan 'seq 2 4' 'seq 3 5' 'par 6 7 8 9' 'seq 10 11' >digits.plan
ours=$(net "$(least "$dswp" run digits.c words.in --plan digits.plan --workers 2 --lane 64)" "$nothing")
tbb=$(net "$(least "$work/tbb" words.in 2 64)" "$(least "$work/tbb" empty.in 2 64)")
row 'the generator'"'"'s loop, four stages' "$ours" "$(ratio "$ours" 65537000) us an iteration"
row '  as gen 7 65536, by its least plan' "$(net "$(least "$dswp" gen 7 65536)" "$nothing")"
row '  oneTBB' "$tbb" "dswp takes $(ratio "$ours" "$tbb") times as long"

# A loop whose iterations make so many turns of an inner loop with this statement.
turning() {
  cat <<C
int sum;
int main() {
  int i = 0;
  $1
  while (i < input_len) {
    int x = input[i];
    i = i + 1;
    int turns = 0;
    while (turns < $2) {
      x = $3;
      turns = turns + 1;
    }
    sum = sum + x;
  }
}
C
}
# A loop whose iterations have so many statements with these operators, one behind the other.
straight() {
  printf 'int sum;\nint main() {\n  int i = 0;\n  %s\n  while (i < input_len) {\n' "$1"
  printf '    int x0 = input[i];\n    i = i + 1;\n'
  for k in $(seq "$2"); do printf '    int x%d = x%d%s + %d;\n' "$k" $((k - 1)) "$3" "$k"; done
  printf '    sum = sum + x%d;\n  }\n}\n' "$2"
}
# The rows of such a loop over the words: its name, its form, how often it has its operators and which, and how many all
# iterations have.
heavy_rows() {
  "$2" '' "$3" "$4" >unmarked.c
  "$2" '#pragma dswp' "$3" "$4" >heavy.c
  alone=$(net "$(least "$dswp" run unmarked.c heavy.in --fuel 1000000000)" "$nothing")
  row "$1, unmarked" "$alone" "$(ratio "$alone" "$5") ns an operator"
  for workers in 1 2 3; do
    ours=$(net "$(least "$dswp" run heavy.c heavy.in --plan heavy.plan --workers $workers --lane 64 --fuel 1000000000)" "$nothing")
    row "  in three stages, workers: $workers" "$ours" "$(ratio "$alone" "$ours") times as fast"
  done
}
sixty=$(printf ' * %d %% %d' 5 8191 7 8179 11 8171 13 8167 17 8161 19 8147 23 8123 29 8117 31 8111 37 8101 \
  41 8093 43 8089 47 8087 53 8081 59 8069 61 8059 67 8053 71 8039 73 8017 79 8011 83 8009 89 7993 97 7963 101 7951 \
  103 7949 107 7937 109 7933 113 7927 127 7919 131 7907)
words 10000 65536 >heavy.in
plan 'seq 2 3 4' 'par 5 6 7 8' 'seq 9' >heavy.plan
heavy_rows 'two thousand operators, six a turn' turning 333 '(x * 5 + 3 + turns) % 65536' 19980000
heavy_rows 'two thousand operators, twenty a turn' turning 100 \
  '((((((x * 5 + 3) % 8191 * 7 + turns) % 8179 * 11 + 1) % 8171 * 13 + turns) % 8167 * 17 + 5) % 8161 * 19 + turns) % 65536' 20000000
heavy_rows 'two thousand operators, sixty a turn' turning 32 "x$sixty + turns" 20160000
cp words.in heavy.in
plan 'seq 2 3 4' "par $(seq -s ' ' 5 37)" 'seq 38' >heavy.plan
heavy_rows 'two thousand operators, sixty-one a statement' straight 33 "$sixty" 131923968

# Few iterations of many operators each, as they are run without a plan that is named.
words 200 65536 >few.in
turning '' 1300 "x$sixty + turns" >unmarked.c
turning '#pragma dswp' 1300 "x$sixty + turns" >few.c
alone=$(net "$(least "$dswp" run unmarked.c few.in --fuel 1000000000)" "$nothing")
row 'two hundred iterations of 82,000 operators, unmarked' "$alone" "$(ratio "$alone" 16380000) ns an operator"
for workers in 2 3; do
  ours=$(net "$(least "$dswp" run few.c few.in --workers $workers --fuel 1000000000)" "$nothing")
  row "  by default, workers: $workers" "$ours" "$(ratio "$alone" "$ours") times as fast"
done

words 20000 1000 >indices.in
for cells in 1000 65536; do
  cat >cells.c <<C
int table[$cells];
int main() {
  int i = 0;
  #pragma dswp
  while (i < input_len) {
    int x = input[i];
    i = i + 1;
    int y = (x * 7 + 3) % 1000;
    table[y] = table[y] + 1;
  }
}
C
  plan 'seq 2 3 4' 'par 5' 'seq 6' >cells.plan
  ours=$(net "$(least "$dswp" run cells.c indices.in --plan cells.plan --workers 2 --lane 64)" \
    "$(least "$dswp" run cells.c empty.in --plan cells.plan --workers 2 --lane 64)")
  row "a table of $cells cells" "$ours" "${small:+$(ratio "$ours" "${small:-1}") times as long}"
  small=$ours
done
