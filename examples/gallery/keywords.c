/* Cuts a program's text, given as character codes, into words, numbers and signs,
   and finds keywords among the words. Prints the place in the table of each keyword
   that it finds. */
/* keywords, as numbers whose digits to base 128 are their characters */
int keywords[4];
int uses[4];
int names;
int numbers;
int signs;
int at;

void fill() {
  keywords[0] = 105 * 128 + 102; // if
  keywords[1] = (105 * 128 + 110) * 128 + 116; // int
  keywords[2] = (102 * 128 + 111) * 128 + 114; // for
  keywords[3] = (((119 * 128 + 104) * 128 + 105) * 128 + 108) * 128 + 101; // while
}

void skip_blanks() {
  while (at < input_len && input[at] <= 32) {
    at = at + 1;
  }
}

/* over small letters and digits, or else over one sign */
void skip_token() {
  int first = at;
  while (at < input_len && ((input[at] >= 97 && input[at] <= 122) || (input[at] >= 48 && input[at] <= 57))) {
    at = at + 1;
  }
  if (at == first) {
    at = at + 1;
  }
}

void count(int begin, int keyword) {
  if (begin >= 48 && begin <= 57) {
    numbers = numbers + 1;
  } else if (begin < 97 || begin > 122) {
    signs = signs + 1;
  } else if (keyword == 4) {
    names = names + 1;
  } else {
    uses[keyword] = uses[keyword] + 1;
    print(keyword);
  }
}

int main() {
  fill();
  skip_blanks();
  #pragma dswp
  while (at < input_len) {
    int first = at;
    skip_token();
    int end = at;
    skip_blanks();

    /* no keyword has more than five characters */
    int characters = 0;
    for (int j = first; j < end && j < first + 6; j = j + 1) {
      characters = characters * 128 + input[j];
    }
    int keyword = 0;
    while (keyword < 4 && keywords[keyword] != characters) {
      keyword = keyword + 1;
    }
    count(input[first], keyword);
  }
}
