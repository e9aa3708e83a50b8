/* Tests the records of a file: each is the count of its numbers, the numbers,
   and their checksum. Prints the checksum of each record as it is computed. */
int table[16];
int good;
int bad;

/* The table mixes four bits at a time. */
void fill() {
  for (int k = 0; k < 16; k = k + 1) {
    table[k] = (k * 4129 + k * k * 613) % 65536;
  }
}

int main() {
  fill();
  int at = 0;
  #pragma dswp
  while (at < input_len) {
    int first = at + 1;
    int end = first + input[at];
    at = end + 1;

    int sum = 65535;
    int j = first;
    while (j < end) {
      int number = input[j];
      /* the four bits that leave the sum choose what is mixed in */
      sum = sum % 4096 * 16 + table[(sum / 4096 + number) % 16];
      sum = (sum + number / 16) % 65536;
      j = j + 1;
    }

    int stored = input[end];
    if (stored == sum) {
      good = good + 1;
    } else {
      bad = bad + 1;
    }
    print(sum);
  }
}
