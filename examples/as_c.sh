#!/usr/bin/env bash
# Writes an example as a program of plain C, which reads an input and writes what `run` writes for the example.
#
#   examples/as_c.sh PROGRAM
#
# What it relies on: each file-scope variable begins its line, there is one region, its mark and its `while` or
# `for` stand on two lines, no iteration has more than 4,096 steps, and the one `break` is an early exit that the least
# plan has behind its first stage. So the iteration that takes it is executed again, and no other one. Each number gets
# the suffix LL, since in C the product of two small numbers has 32 bits.
set -eu
cat <<'C'
#include <stdio.h>
static long long input[65536], input_len, iterations, left_early;
static void show(const char *name, const long long *values, unsigned long count) {
  printf("%s", name);
  for (unsigned long i = 0; i < count; i++) printf(" %lld", values[i]);
  printf("\n");
}
#define print(value) printf("%lld\n", (value))
#define int long long
#define main program
C
sed -e 's/\b[0-9]\{1,\}\b/&LL/g' -e '/#pragma dswp/{N;s/#pragma dswp\n *while (/while (iterations++, /;s/#pragma dswp\n *for (\([^;]*;\) /for (\1 iterations++, /}' \
  -e 's/ break;/ { left_early = 1; break; }/' "$1"
cat <<'C'
#undef main
#undef int
int main(void) {
  while (scanf("%lld", &input[input_len]) == 1) input_len++;
  program();
  printf("state\n");
C
sed -n -e 's/^int \([A-Za-z_0-9]*\)\[[0-9]*\];.*/  show("\1", \1, sizeof \1 \/ sizeof *\1);/p' \
  -e 's/^int \([A-Za-z_0-9]*\)\( = -\{0,1\}[0-9]*\)\{0,1\};.*/  show("\1", \&\1, 1);/p' "$1"
cat <<'C'
  printf("region 1 iterations %lld recovered %lld", iterations, left_early);
  if (left_early) printf(": %lld", iterations - 1);
  printf("\nend done\n");
  return 0;
}
C
