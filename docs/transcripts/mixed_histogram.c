int h[4];
int main() {
  int i = 0;
  #pragma dswp
  while (i < input_len) {
    int x = input[i];
    i = i + 1;
    int r = 0;
    while (r < 3) {
      x = (x * 5 + 3) % 16;
      r = r + 1;
    }
    if (x < 0) {
      x = -x;
    }
    h[x % 4] = h[x % 4] + 1;
  }
}
