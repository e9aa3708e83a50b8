/* Writes bytes in base 64 (RFC 4648): each three bytes become four characters of six
   bits, and what is left at the end is filled up by `=`. Prints the characters' codes. */
int alphabet[64];
int groups;

void fill() {
  for (int k = 0; k < 26; k = k + 1) {
    alphabet[k] = 65 + k;
    alphabet[k + 26] = 97 + k;
  }
  for (int k = 0; k < 10; k = k + 1) {
    alphabet[k + 52] = 48 + k;
  }
  alphabet[62] = 43;
  alphabet[63] = 47;
}

int main() {
  fill();
  #pragma dswp
  for (int at = 0; at + 2 < input_len; at = at + 3) {
    int bits = input[at] * 65536 + input[at + 1] * 256 + input[at + 2];
    print(alphabet[bits / 262144]);
    print(alphabet[bits / 4096 % 64]);
    print(alphabet[bits / 64 % 64]);
    print(alphabet[bits % 64]);
    groups = groups + 1;
  }

  int last = input_len - input_len % 3;
  if (input_len > last) {
    int bits = input[last] * 65536;
    if (input_len == last + 2) {
      bits = bits + input[last + 1] * 256;
    }
    print(alphabet[bits / 262144]);
    print(alphabet[bits / 4096 % 64]);
    if (input_len == last + 2) {
      print(alphabet[bits / 64 % 64]);
    } else {
      print(61);
    }
    print(61);
  }
}
