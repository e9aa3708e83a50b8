/* The input is the length of each word of a text. Counts how many words have
   which length, and prints the commonest length. */
int lengths[12];
int words;
int rejected;

/* Lengths of 11 and more share the last place. */
void count(int length) {
  int place = length;
  if (place > 11) {
    place = 11;
  }
  lengths[place] = lengths[place] + 1;
  words = words + 1;
}

int main() {
  #pragma dswp
  for (int i = 0; i < input_len; i = i + 1) {
    int length = input[i];
    if (length > 0) {
      count(length);
    } else {
      rejected = rejected + 1;
    }
  }

  int best = 1;
  for (int n = 2; n < 12; n = n + 1) {
    if (lengths[n] > lengths[best]) {
      best = n;
    }
  }
  print(best);
  return 0;
}
