int n;
int main() {
  int i = 0;
  #pragma dswp
  while (i < input_len) {
    int x = input[i];
    if (x < 0) {
      i = i + 1;
    }
    i = i + 1;
    n = n + x;
  }
}
