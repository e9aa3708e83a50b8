#!/usr/bin/env bash
# Times one straight loop of two million steps under dswp, as a pipeline and without its mark, CPython and gcc -O2.
# Each time is the least of nine runs, less the time of an empty program under the same runner.
set -euo pipefail
. "$(dirname "$0")/common.sh"
need_dswp
python=$(python3 -c 'import sys; print(sys.executable)')   # not a wrapper, whose own start takes longer than the loop
gcc -O2 -o "$work/native" "$here/straight_loop_native.c"
sed '/#pragma dswp/d' "$here/straight_loop.c" >"$work/unmarked.c"
printf 'int main() { }\n' >"$work/empty.c"
printf 'int main(void) { return 0; }\n' >"$work/nothing.c"
gcc -O2 -o "$work/nothing" "$work/nothing.c"

machine
nothing=$(least "$dswp" run "$work/empty.c")
pipeline=$(net "$(least "$dswp" run "$here/straight_loop.c")" "$nothing")
ours=$(net "$(least "$dswp" run "$work/unmarked.c")" "$nothing")
python=$(net "$(least "$python" "$here/straight_loop.py")" "$(least "$python" -c '')")
native=$(net "$(least "$work/native")" "$(least "$work/nothing")")
row 'dswp, without the mark' "$ours" "$(ratio "$ours" 2000001) ns a step"
row '  as a pipeline of its least plan' "$pipeline" "$(ratio "$pipeline" 500000) ns an iteration, $(ratio "$pipeline" "$ours") times as long"
row '  CPython' "$python" "$(ratio "$python" "$ours") times as long"
row '  gcc -O2' "$native" "dswp takes $(ratio "$ours" "$native") times as long"
