# What the scripts of this folder share. Each reads it first; it makes the folder $work, which is removed at the end.
here=$(cd "$(dirname "${BASH_SOURCE[0]}")" && pwd)
top=$(cd "$here/.." && pwd)
work=$(mktemp -d)
trap 'rm -rf "$work"' EXIT

# Proves and builds the program where it isn't built, and calls it $dswp.
need_dswp() { "$top/dswp" --prove && dswp="$top/crates/dswp/out/dswp"; }

# The least time of nine runs of a command, or of as many as $runs says, in nanoseconds.
least() {
  local best= start end
  for _ in $(seq "${runs:-9}"); do
    start=$(date +%s%N)
    "$@" >/dev/null 2>&1
    end=$(date +%s%N)
    if [ -z "$best" ] || [ $((end - start)) -lt "$best" ]; then best=$((end - start)); fi
  done
  echo "$best"
}

# A time less another one, and above 0.
net() { echo $(($1 > $2 ? $1 - $2 : 1)); }

# The quotient of two numbers, with two digits behind the point.
ratio() { awk -v a="$1" -v b="$2" 'BEGIN { printf "%.2f", a / b }'; }

# A line of a table: what was timed, the time, and what is to be said of it.
row() { printf '%-46s %9s ms  %s\n' "$1" "$(ratio "$2" 1000000)" "${3-}"; }

# So many numbers in a row, from 0 up to and without a limit.
words() { awk -v n="$1" -v m="$2" 'BEGIN { x = 7; for (k = 0; k < n; k++) { x = (x * 1103515245 + 12345) % 2147483648; print int(x / 32768) % m } }'; }

# Words of the kind that the program is for, or else those of the example's own input, again and again.
many_words() {
  if [ -f "$top/examples/gallery/$1.c" ]; then
    "$top/examples/gallery/inputs.py" "$1" long
    return
  fi
  case $1 in
    binary_search) words 65536 20 | awk '{ print $1 * $1 }' ;;
    hash_table) words 65536 16 | awk '{ print $1 * 97 }' ;;
    partial_sums) echo 16; words 16 100; words 32759 8 | awk '{ print $1, $1 + 8 }' ;;
    running_filter) awk 'BEGIN { for (k = 0; k < 65536; k++) print 100 + int(k / 4) + (k % 16 == 0) * 60 }' ;;
    word_histogram) words 65536 13 ;;
    edit_distance | heap | matrix_powers) words 65536 1000 ;;
    record_checksums) awk '{ line[n] = $0; size[n++] = NF } END { for (k = 0; total + size[k % n] <= 65536; k++) { print line[k % n]; total += size[k % n] } }' "$top/examples/$1.in" ;;
    *) tr -s ' \n' '\n\n' <"$top/examples/$1.in" | awk '/./ { word[n++] = $1 } END { for (k = 0; k < 65536; k++) print word[k % n] }' ;;
  esac
}

# What the times were seen on.
machine() { echo "$(nproc) processors, $(sed -n 's/^model name[^:]*: *//p' /proc/cpuinfo | head -n 1), load $(cut -d ' ' -f 1 /proc/loadavg)"; }

# The program that `gen` makes.
generators_loop() {
  cat <<'C'
int hist[16];
int sum;
int main() {
  int i = 0;
  #pragma dswp
  while (i < input_len) {
    int x = input[i];
    i = i + 1;
    int a = x % 16;
    int b = (a * 5 + 3) % 16;
    int c = (b * 5 + 3) % 16;
    int d = (c * 5 + 3) % 16;
    int y = (d * 5 + 3) % 16;
    hist[y] = hist[y] + 1;
    sum = sum + y;
  }
}
C
}
