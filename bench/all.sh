#!/usr/bin/env bash
# Runs all measurements of this folder, one after the other, and prints their tables. It takes tens of minutes, and needs what
# each of them names at its head. Ends with 1 where one fails.
set -u
cd "$(dirname "$0")"
failed=0
for script in examples gallery straight_loop pipeline epochs batch lanes; do
  echo "== bench/$script.sh"
  "./$script.sh" || { failed=1; echo "bench/$script.sh failed"; }
done
echo "== bench/marks.py"
./marks.py || { failed=1; echo "bench/marks.py failed"; }
exit $failed
