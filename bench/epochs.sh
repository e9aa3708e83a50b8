#!/usr/bin/env bash
# Times regions whose iterations are often executed again, so that epochs are short, beside the same programs unmarked, in one run
# on this machine:
#   the hash table of examples/ under its own plan, over 65,536 words;
#   a loop of which each second iteration is executed again: more can't be by a load, since the first of an epoch sees what is committed;
#   a loop of which each hundredth is, beside a memory of 1,000 cells and of 65,536.
# Each time is the least of nine runs, less the time of an empty program under the same runner; the last loop's are less the time of
# the same program on an empty input, which writes as many values. An epoch's time is what a run takes longer than unmarked, by the
# iterations that it executed again.
set -euo pipefail
. "$(dirname "$0")/common.sh"
need_dswp
cd "$work"
printf 'int main() { }\n' >empty.c
: >empty.in
plan() { printf 'plan 2\nregion 1 words 4096\n'; printf '%s\n' "$@"; printf 'end\n'; }
machine
nothing=$(least "$dswp" run empty.c)

# How many iterations of region 1 were executed again.
again() { "$dswp" run "$@" 2>/dev/null | sed -n 's/^region 1 iterations [0-9]* recovered \([0-9]*\).*/\1/p'; }

# A program's time marked and unmarked, and what an epoch takes: the name of the row, the program, its input, its plan.
beside() {
  sed '/#pragma dswp/d' "$2" >unmarked.c
  local alone ours epochs
  alone=$(net "$(least "$dswp" run unmarked.c "$3")" "$(least "$dswp" run unmarked.c empty.in)")
  ours=$(net "$(least "$dswp" run "$2" "$3" --plan "$4")" "$(least "$dswp" run "$2" empty.in --plan "$4")")
  epochs=$(again "$2" "$3" --plan "$4")
  row "$1, unmarked" "$alone"
  row "  marked" "$ours" "$(ratio "$ours" "$alone") times as long, $epochs executed again: $(ratio "$(net "$ours" "$alone")" $((epochs * 1000 + 1))) us an epoch"
}

words 65536 65536 >words.in
beside 'the hash table of the examples' "$top/examples/hash_table.c" words.in "$top/examples/hash_table.plan"

# The second stage loads what the last one stored in the iteration before.
cat >each.c <<'C'
int last;
int sum;
int main() {
  int i = 0;
  #pragma dswp
  while (i < input_len) {
    int x = input[i];
    i = i + 1;
    int y = (last * 5 + x) % 65536;
    sum = sum + y;
    last = y + 1;
  }
}
C
plan 'seq 2 3 4' 'seq 5 6' 'seq 7' >each.plan
head -n 20000 words.in >twenty.in
beside 'each second iteration executed again' each.c twenty.in each.plan

for cells in 1000 65536; do
  cat >hundredth.c <<C
int table[$((cells - 2))];
int hits;
int sum;
int main() {
  int i = 0;
  #pragma dswp
  while (i < input_len) {
    int x = input[i];
    i = i + 1;
    int y = (x * 7 + 3) % 900;
    sum = sum + hits + y;
    table[y] = table[y] + 1;
    if (i % 100 == 0) {
      hits = hits + 1;
    }
  }
}
C
  plan 'seq 2 3 4' 'seq 5 6' 'seq 7 8 9' >hundredth.plan
  beside "a table of $cells cells, each hundredth again" hundredth.c twenty.in hundredth.plan
done
