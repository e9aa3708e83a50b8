#!/usr/bin/env bash
# Times the generator's loop with one worker on 64 inputs of 65,536 words: as one batch, and as 64 runs one after the other.
# Each time is the least of nine, less that of as many starts with an empty program. Ends with 1 where a text of the batch
# isn't that of its run.
set -euo pipefail
. "$(dirname "$0")/common.sh"
need_dswp
inputs=64
cd "$work"
printf 'int main() { }\n' >empty.c
generators_loop >digits.c
for k in $(seq $inputs); do
  words 65536 $((65536 - k)) >"$k.in"
  echo "$k.in"
done >list.txt

runs() {
  local name
  while read -r name; do "$dswp" run "$1" "$name" --workers 1; done <list.txt
}
numbered_runs() {
  local number=0 name
  while read -r name; do
    number=$((number + 1))
    echo "input $number"
    "$dswp" run digits.c "$name" --workers 1
  done <list.txt
}
batch() { "$dswp" batch digits.c list.txt --workers 1; }

numbered_runs >runs.txt
batch >batch.txt
cmp runs.txt batch.txt

machine
alone=$(net "$(least runs digits.c)" "$(least runs empty.c)")
row "$inputs runs, one after the other" "$alone" "$(ratio "$alone" $((inputs * 1000000))) ms a run"
together=$(net "$(least batch)" "$(least "$dswp" run empty.c)")
row '  as one batch' "$together" "$(ratio "$alone" "$together") times as fast"
