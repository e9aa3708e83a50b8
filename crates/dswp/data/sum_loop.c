int s;
int main() {
  int i = 0;
  #pragma dswp
  while (i < 3) {
    s = s + i;
    print(s);
    i = i + 1;
  }
}
