int sum;
int main() {
  int i = 0;
  #pragma dswp
  while (i < input_len) {
    sum = sum + input[i];
    i = i + 1;
  }
}
