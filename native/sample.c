/* Of this program crates/dp_sample is the native code, as native/crate.py writes it. */
int a[8];
int s;
int main() {
  int i = 0;
  while (i < input_len) {
    if (input[i] > 0 && a[i % 8] < 9) {
      a[i % 8] = a[i % 8] + input[i];
      print(s * 3);
    } else {
      s = (i % 3) * 5 + (i % 5) * 3 - (i % 7) * 2 + (i % 11) * (i % 13);
    }
    i = i + 1;
  }
}
