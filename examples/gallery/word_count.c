/* Counts how often each word occurs in a text, given as codes of small letters and
   blanks, in a hash table with linear probing. A word's key is its letters as the
   digits of a number, of which 13 fit; so longer words count as their first 13
   letters. Prints the greatest count. */
int keys[128];
int counts[128];
int words;
int distinct;
int refused;

int main() {
  int at = 0;
  #pragma dswp
  while (at < input_len) {
    while (at < input_len && input[at] <= 32) {
      at = at + 1;
    }
    int first = at;
    while (at < input_len && input[at] > 32) {
      at = at + 1;
    }
    int end = at;

    int key = 0;
    for (int j = first; j < end && j < first + 13; j = j + 1) {
      key = key * 27 + input[j] - 96;
    }
    int place = key % 8191 % 128;
    int tries = 0;
    while (tries < 128 && keys[place] != 0 && keys[place] != key) {
      place = (place + 1) % 128;
      tries = tries + 1;
    }

    /* behind the last blanks there is no word */
    if (end > first) {
      words = words + 1;
      if (tries == 128) {
        refused = refused + 1;
      } else {
        if (keys[place] == 0) {
          keys[place] = key;
          distinct = distinct + 1;
        }
        counts[place] = counts[place] + 1;
      }
    }
  }

  int most = 0;
  for (int place = 0; place < 128; place = place + 1) {
    if (counts[place] > most) {
      most = counts[place];
    }
  }
  print(most);
}
