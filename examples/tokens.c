/* Cuts a text, given as character codes, into words, numbers and signs.
   Prints the length of each word and number where it ends. */
int words;
int numbers;
int signs;
int longest;
/* of the token that is under way: 1 a word, 2 a number, 0 where there is none */
int kind;
int length;

void finish() {
  if (kind != 0) {
    print(length);
    if (length > longest) {
      longest = length;
    }
  }
  kind = 0;
  length = 0;
}

void start(int class) {
  kind = class % 3;
  words = words + (class == 1);
  numbers = numbers + (class == 2);
  signs = signs + (class == 3);
}

int main() {
  #pragma dswp
  for (int i = 0; i < input_len; i = i + 1) {
    int code = input[i];

    /* 0 a blank, 1 a letter, 2 a digit, 3 a sign */
    int class = 3;
    if (code == 32 || code == 10) {
      class = 0;
    } else if (code >= 48 && code <= 57) {
      class = 2;
    } else if ((code >= 65 && code <= 90) || (code >= 97 && code <= 122)) {
      class = 1;
    }

    /* a word goes on with letters and digits, a number with digits */
    int goes_on = (kind == 1 && (class == 1 || class == 2)) || (kind == 2 && class == 2);
    if (!goes_on) {
      finish();
      start(class);
    }
    length = length + 1;
  }
  finish();
}
