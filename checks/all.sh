#!/usr/bin/env bash
# Runs the checks of this folder, one after the other, and ends with a line for each: its last line and its status. They
# are what the gate, .ci/run, doesn't run; caps.py and choices.py, which build six programs first, come last. But changed_bodies.py and
# changed_definitions.py, which take a crate, gate_cost.py, which looks at a gate, and native.py, which takes minutes a program,
# are called by themselves. Needs gcc and python3. Ends with 1 where one fails; its output stands above then.
set -u
cd "$(dirname "$0")/.." || exit 1
./dswp --prove || exit
work=$(mktemp -d)
trap 'rm -rf "$work"' EXIT
failed=0
all=(checks/*)
all=("${all[@]#checks/caps.py}")
for check in "${all[@]#checks/choices.py}" checks/caps.py checks/choices.py; do
  case $check in checks/all.sh | checks/changed_* | checks/gate_cost.py | checks/native.py) continue ;; esac
  if ! [ -f "$check" ] || ! [ -x "$check" ]; then continue; fi
  "$check" >"$work/log" 2>&1
  status=$?
  if [ $status != 0 ]; then
    failed=1
    cat "$work/log"
  fi
  echo "$check: $(tail -n 1 "$work/log") (status $status)" >>"$work/lines"
done
cat "$work/lines"
exit $failed
