/* Tests the records of a file: each is the count of its bytes, the bytes, and their
   cyclic redundancy check, CRC-16/CCITT-FALSE: the polynomial is 4129 (hexadecimal
   1021), the start 65535, and bits go in and out at the top. Prints each check. Of
   the nine digits 1 to 9 it is 10673. */
/* the exclusive or of a and b, which have four bits, stands at a * 16 + b */
int mix[256];
int good;
int bad;

void fill() {
  for (int place = 0; place < 256; place = place + 1) {
    for (int bit = 1; bit < 16; bit = bit * 2) {
      if (place / 16 / bit % 2 != place / bit % 2) {
        mix[place] = mix[place] + bit;
      }
    }
  }
}

int main() {
  fill();
  int at = 0;
  #pragma dswp
  while (at < input_len) {
    int first = at + 1;
    int end = first + input[at];
    at = end + 1;

    /* Four bits at a time: `top` leaves, and top * 4129, which has no carries and
       no digit but top, top / 8, top % 8 * 2 and top, is mixed in. */
    int crc = 65535;
    for (int j = first; j < end; j = j + 1) {
      int byte = input[j];
      int top = mix[crc / 4096 * 16 + byte / 16];
      crc = mix[crc / 256 % 16 * 16 + top] * 4096 + mix[crc / 16 % 16 * 16 + top / 8] * 256
            + mix[crc % 16 * 16 + top % 8 * 2] * 16 + top;
      top = mix[crc / 4096 * 16 + byte % 16];
      crc = mix[crc / 256 % 16 * 16 + top] * 4096 + mix[crc / 16 % 16 * 16 + top / 8] * 256
            + mix[crc % 16 * 16 + top % 8 * 2] * 16 + top;
    }

    if (crc == input[end]) {
      good = good + 1;
    } else {
      bad = bad + 1;
    }
    print(crc);
  }
}
