/* Counts how often each key occurs, in a hash table with linear probing.
   A place holds a key where its count isn't 0. Prints keys and counts. */
int keys[16];
int counts[16];
int distinct;
int refused;

/* Counts the key at the place, or takes the place for it. */
void put(int place, int key) {
  if (counts[place] == 0) {
    keys[place] = key;
    distinct = distinct + 1;
  }
  counts[place] = counts[place] + 1;
}

int main() {
  int i = 0;
  #pragma dswp
  while (i < input_len) {
    int key = input[i];
    i = i + 1;

    /* a remainder has the sign of its dividend */
    int place = (key % 1009 * 31 + 7) % 16;
    if (place < 0) {
      place = place + 16;
    }

    int tries = 0;
    while (tries < 16 && counts[place] != 0 && keys[place] != key) {
      place = (place + 1) % 16;
      tries = tries + 1;
    }
    if (tries < 16) {
      put(place, key);
    } else {
      refused = refused + 1;
    }
  }

  int p = 0;
  while (p < 16) {
    if (counts[p] > 0) {
      print(keys[p]);
      print(counts[p]);
    }
    p = p + 1;
  }
}
