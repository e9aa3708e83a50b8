/* Divides by each number of the input. */
int sum;
int main() {
  int i = 0;
  #pragma dswp
  while (i < input_len) {
    sum = sum + 60 / input[i];
    print(sum);
    i = i + 1;
  }
}
