int a[8];
int s;
int main() {
  int i = 0;
  #pragma dswp
  while (i < 6) {
    s = s + a[i];
    i = i + 1;
    a[(i + 1) % 8] = i;
  }
}
