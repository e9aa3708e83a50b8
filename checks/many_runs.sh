#!/usr/bin/env bash
# Runs each example, under its least plan and its own, each planned program of the documents, and a loop of which each fiftieth
# iteration is executed again, so that epochs are handed to threads and break off, many times, with 1, 2 and 8 workers and lanes
# of 1, 2 and 64 places, and compares every text and status with the first. Ends with 1 where one differs, and stops a run after
# a minute.
#
#   checks/many_runs.sh [COUNT]    COUNT runs of each, 1000 where it isn't given
set -eu
here=$(cd "$(dirname "$0")/.." && pwd)
count=${1:-1000}
"$here/dswp" --prove
dswp="$here/crates/dswp/out/dswp"
work=$(mktemp -d)
trap 'rm -rf "$work"' EXIT
crews=()
for workers in 1 2 8; do
  for lane in 1 2 64; do crews+=("--workers $workers --lane $lane"); done
done

answer() { timeout 60 "$dswp" "$@" >"$work/text" 2>&1 && echo "status 0" >>"$work/text" || echo "status $?" >>"$work/text"; }

runs=0
differ=0
# The words behind `run`; under a plan that is named the text doesn't depend on the workers.
repeat() {
  answer run "$@"
  cp "$work/text" "$work/first"
  for ((turn = 0; turn < count; turn++)); do
    answer run "$@" ${crews[turn % ${#crews[@]}]}
    runs=$((runs + 1))
    if ! cmp -s "$work/text" "$work/first"; then
      differ=$((differ + 1))
      echo "differs: run $* ${crews[turn % ${#crews[@]}]}"
    fi
  done
}

cd "$here"
for program in examples/*.c; do
  ./dswp plan "$program" >"$work/plan"
  repeat "$program" "${program%.c}.in" --plan "$work/plan" --why
done
for plan in examples/*.plan; do
  repeat "${plan%.plan}.c" "${plan%.plan}.in" --plan "$plan" --why
done
for plan in docs/transcripts/*.plan; do
  [ -f "${plan%.plan}.c" ] && repeat "${plan%.plan}.c" --plan "$plan" --why
done
cat >"$work/fiftieth.c" <<'C'
int table[100];
int hits;
int sum;
int main() {
  int i = 0;
  #pragma dswp
  while (i < input_len) {
    int x = input[i];
    i = i + 1;
    int y = (x * 7 + 3) % 90;
    sum = sum + hits + y;
    table[y] = table[y] + 1;
    if (i % 50 == 0) {
      hits = hits + 1;
    }
  }
}
C
printf 'plan 2\nregion 1 words 4096\nseq 2 3 4\npar 5\nseq 6\nseq 7 8 9\nend\n' >"$work/fiftieth.plan"
seq 1500 >"$work/fiftieth.in"
repeat "$work/fiftieth.c" "$work/fiftieth.in" --plan "$work/fiftieth.plan" --why
echo "$runs runs, $differ differ"
[ "$differ" = 0 ]
