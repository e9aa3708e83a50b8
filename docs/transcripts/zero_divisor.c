int q;
int main() {
  int i = 0;
  #pragma dswp
  while (i < 6) {
    q = 12 / (3 - i);
    i = i + 1;
  }
}
