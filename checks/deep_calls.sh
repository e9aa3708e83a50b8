#!/usr/bin/env bash
# Runs the deepest programs that a text allows, 64 functions with each call 63 blocks deep, on a stack of 2 MiB.
set -eu
cd "$(dirname "$0")/.."
./dswp --prove
work=$(mktemp -d)
trap 'rm -rf "$work"' EXIT
repeated() { local text; printf -v text '%63s' ''; printf '%s' "${text// /$1}"; }
for block in 'if(1){' 'while(g<1){'; do
  {
    echo 'int g;'
    echo 'void f0() { g = g + 1; }'
    for ((k = 1; k < 64; k++)); do echo "void f$k(){$(repeated "$block")f$((k - 1))();$(repeated '}')}"; done
    echo "int main(){$(repeated "$block")f63();$(repeated '}')print(g);}"
  } >"$work/deep.c"
  (ulimit -s 2048 && ./dswp run "$work/deep.c") | head -n 1 | grep -qx 1
done
echo "both programs run"
