int total;
void add(int amount, int times) {
  if (times > 0) {
    total = total + amount * times;
  }
}
int main() {
  add(5, 2);
  int i = 0;
  #pragma dswp
  while (i < 3) {
    add(i, 1);
    i = i + 1;
  }
  print(total);
}
