int total;
int main() {
  totl = 1;
}
