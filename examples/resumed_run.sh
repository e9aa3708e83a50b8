#!/usr/bin/env bash
# Runs a long loop in pieces, is killed at random moments, and goes on from its last checkpoint each time: what is lost is only
# what ran since. At the end the answer is compared with that of one run. Ends with 1 where they differ.
#
#   examples/resumed_run.sh [PIECE [MOST]]    PIECE iterations a piece, 2000 where it isn't given; each start is killed after a
#                                             random time of up to MOST milliseconds, 400 where it isn't given
#
# `save` begins at the program's start and `resume` goes to its end. So for any program they make two pieces of a run: save it
# once, say half way, and go on from there as often as need be. For more pieces the program has to help, as the one below does:
#
# - a variable at file scope, `until`, says where the loop stops: it is another number in the checkpoint of each piece;
# - all that one iteration hands to the next is at file scope, so that the text of a piece shows it. The next checkpoint is
#   made of these values.
#
# Such a checkpoint isn't one that `save` wrote. `resume` takes it as well, and says what follows from those values; that the
# pieces are one run is by this program's form. The steps count from 0 in each piece, so each has the whole fuel.
#
# A piece is a folder with its prints and the next checkpoint, or the end of the answer. It is written under another name and
# then renamed, so that a kill leaves it whole or not there. The proved program is run, or the one that DSWP names.
set -eu
here=$(cd "$(dirname "$0")/.." && pwd)
dswp=${DSWP-$here/crates/dswp/out/dswp}
whole=40000

program() {
  cat <<'C'
int done;
int until = 40000;
int kinds[16];
int sum;
int main() {
  #pragma dswp
  while (done < until) {
    int x = (done * 7919 + 12345) % 65536;
    done = done + 1;
    int rounds = 0;
    while (rounds < 8) {
      x = (x * 421 + 1663) % 65536;
      rounds = rounds + 1;
    }
    kinds[x % 16] = kinds[x % 16] + 1;
    sum = (sum * 31 + x) % 1000003;
    if (done % 1000 == 0) {
      print(sum);
    }
  }
}
C
}

# The checkpoint $1 with another number in `until`, its second cell.
stopped_at() { sed "3s/^cells \([^ ]*\) [^ ]*/cells \1 $2/" "$1"; }

# The checkpoint behind a piece, of the text that `resume` wrote: file-scope values, and 0 for each cell beyond, which the
# checkpoint $1 counts. The last iteration of a piece finds that it is to stop, so it is none of the whole run.
next_checkpoint() {
  awk -v cells="$(sed -n 3p "$1" | wc -w)" '
    !state { state = /^state$/; next }
    /^region 1 / { after = $4 - 1; again = $0; sub(/.* recovered/, "recovered", again); next }
    /^end / { next }
    { for (i = 2; i <= NF; i++) { values = values " " $i; count++ } }
    END {
      while (++count < cells) values = values " 0"
      printf "checkpoint 1\nregion 1 after %d steps 0 fuel 1000000000\ncells%s\nreport 1 iterations %d %s\nend\n", after, values, after, again
    }'
}

# Goes on in folder $1 from its last piece, in pieces of $2 iterations.
go_on() {
  local piece new from to
  piece=$(find "$1" -maxdepth 1 -name 'piece-*' | sort | tail -n 1)
  until [ -n "$piece" ] && [ -e "$piece/end" ]; do
    new=$(mktemp -d "$1/new.XXXXXX")
    if [ -z "$piece" ]; then
      from=0
      "$dswp" save "$1/program.c" --region 1 --after 0 --fuel 1000000000 >"$new/checkpoint"
    else
      from=$((10#${piece##*-}))
      to=$((from + $2 < whole ? from + $2 : whole))
      stopped_at "$piece/checkpoint" "$to" >"$new/from"
      "$dswp" resume "$1/program.c" "$new/from" >"$new/text"
      sed '/^state$/,$d' "$new/text" >"$new/prints"
      if [ "$to" = "$whole" ]; then sed -n '/^state$/,$p' "$new/text" >"$new/end"; fi
      next_checkpoint "$piece/checkpoint" <"$new/text" >"$new/checkpoint"
      from=$to
    fi
    piece=$1/piece-$(printf %09d "$from")
    mv -T "$new" "$piece"
  done
}

if [ "${1-}" = go-on ]; then
  go_on "$2" "$3"
  exit
fi

[ -n "${DSWP-}" ] || "$here/dswp" --prove
work=$(mktemp -d)
trap 'rm -rf "$work"' EXIT
program >"$work/program.c"
"$dswp" run "$work/program.c" --fuel 1000000000 >"$work/one"

starts=0
status=137
while [ $status = 137 ]; do
  starts=$((starts + 1))
  seconds=$(awk -v most="${2-400}" -v random=$RANDOM 'BEGIN { print (1 + random % most) / 1000 }')
  status=0
  timeout -s KILL "$seconds" "$0" go-on "$work" "${1-2000}" || status=$?
done 2>"$work/killed"
if [ $status != 0 ]; then
  cat "$work/killed" >&2
  exit $status
fi

cat "$work"/piece-*/prints "$work/piece-$(printf %09d "$whole")/end" 2>/dev/null >"$work/pieces"
# Each piece begins an epoch, so other iterations may have been executed again.
for text in one pieces; do sed -i 's/^\(region .*\) recovered .*/\1/' "$work/$text"; done
echo "$(($(find "$work" -maxdepth 1 -name 'piece-*' | wc -l) - 1)) pieces, $starts starts"
if ! diff "$work/one" "$work/pieces"; then
  echo 'the answers differ'
  exit 1
fi
echo 'the same answer as in one run'
