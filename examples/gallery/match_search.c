/* Codes a text, given as character codes, in the manner of Lempel and Ziv (1977):
   a piece of three and more characters that stands up to 32 places before, too, is
   coded by its distance and its length, and each other character by 0 and itself.
   The longest match is looked for at each place, also where none will be taken, so
   that no search waits for the choice before it. */
int matches;
int literals;

int main() {
  /* the first place that isn't coded yet */
  int next = 0;
  #pragma dswp
  for (int at = 0; at < input_len; at = at + 1) {
    int length = 0;
    int distance = 0;
    for (int from = at - 1; from >= 0 && at - from <= 32; from = from - 1) {
      int same = 0;
      while (same < 16 && at + same < input_len && input[from + same] == input[at + same]) {
        same = same + 1;
      }
      if (same > length) {
        length = same;
        distance = at - from;
      }
    }

    if (at == next) {
      if (length >= 3) {
        print(distance);
        print(length);
        matches = matches + 1;
        next = at + length;
      } else {
        print(0);
        print(input[at]);
        literals = literals + 1;
        next = at + 1;
      }
    }
  }
}
