#!/usr/bin/env bash
# Runs a program on each input that a file names, on several hosts: 64 inputs a batch, one batch at a time on each host.
# Writes the texts in the file's order, as one batch of all inputs would, and compares them with those of single runs here.
#
#   [HOSTS=HOST,..] [SINGLE=no] examples/batch_over_hosts.sh PROGRAM NAMES [OPTION..]
#
# NAMES has a name on each line, from this folder, and the options are those of `batch`. HOSTS are what GNU parallel takes
# behind --sshlogin: by default `:`, this machine. Each of them is to have this folder and the repository under the same
# names, as on a shared disk, with the program proved and built. SINGLE=no leaves the single runs out, which take longer.
# Ends with 1 where a batch fails or a text differs. Needs GNU parallel.
set -euo pipefail
[ $# -ge 2 ] || { sed -n '2,/^set /s/^# \{0,1\}//p' "$0" >&2; exit 2; }
dswp=$(cd "$(dirname "${BASH_SOURCE[0]}")/.." && pwd)/dswp
program=$1 names=$2
shift 2
work=$(mktemp -d)
trap 'rm -rf "$work"' EXIT

# What a host does with 64 names. Words are quoted once more, since its shell reads them.
quoted() { [ $# -eq 0 ] || printf '%q ' "$@"; }
job="list=\$(mktemp) && cat >\"\$list\" && $(quoted "$dswp" batch "$@" -- "$program")\"\$list\"; status=\$?; rm -f \"\$list\"; exit \$status"

# An `input` line counts within its batch; here it counts through all of them. No other line of a text begins so, since a
# program can't name a variable `input`.
renumbered() { awk '/^input [0-9]+$/ { $0 = "input " ++number } { print }'; }

parallel --will-cite --pipe -N 64 --keep-order --jobs 1 --sshlogin "${HOSTS:-:}" --workdir "$PWD" --halt now,fail=1 "$job" <"$names" |
  renumbered | tee "$work/batches" || { echo "$0: a batch failed" >&2; exit 1; }

[ "${SINGLE-}" = no ] && exit
number=0
while IFS= read -r name; do
  number=$((number + 1))
  echo "input $number"
  status=0
  "$dswp" run "$@" -- "$program" "$name" </dev/null || status=$?
  case $status in 0 | 1 | 8) ;; *) exit 1 ;; esac
done <"$names" | cmp - "$work/batches" >&2
