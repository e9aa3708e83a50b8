int s;
int main() {
  int i = 0;
  #pragma dswp
  while (i < 500000) {
    s = s + i * 3;
    s = s % 1000003;
    i = i + 1;
  }
}
