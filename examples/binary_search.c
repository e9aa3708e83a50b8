/* Looks up each input word in a sorted table by bisection, and prints the place
   where it stands. Stops at the first word that isn't there. */
int table[20];
int found;
int last_key;
int looks;

/* The table holds the square numbers. */
void fill() {
  for (int k = 0; k < 20; k = k + 1) {
    table[k] = k * k;
  }
}

int main() {
  fill();
  #pragma dswp
  for (int i = 0; i < input_len; i = i + 1) {
    int key = input[i];

    int low = 0;
    int high = 20;
    while (low < high) {
      int middle = low + (high - low) / 2;
      looks = looks + 1;
      if (table[middle] < key) {
        low = middle + 1;
      } else {
        high = middle;
      }
    }

    int there = 0;
    if (low < 20) {
      there = table[low] == key;
    }
    last_key = key;
    if (!there) break;
    found = found + 1;
    print(low);
  }
}
