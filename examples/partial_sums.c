/* The input is a count n, then n values, and then pairs `from to`, each of
   which asks for the sum of the values from place `from` up to and without
   place `to`. The region makes the table of partial sums; after it each
   question is one subtraction. */
int sums[17];
int n;
int questions;

void ask(int from, int to) {
  print(sums[to] - sums[from]);
  questions = questions + 1;
}

int main() {
  n = input[0];
  int i = 0;
  #pragma dswp
  while (i < n) {
    int value = input[1 + i];
    sums[i + 1] = sums[i] + value;
    i = i + 1;
  }

  int q = n + 1;
  while (q + 1 < input_len) {
    ask(input[q], input[q + 1]);
    q = q + 2;
  }
}
