/* Codes a row of pixels by run lengths, as fax machines do: prints for each run of
   equal pixels how many they are and which. A run has at most 255 of them, so that
   its length fits a byte. */
int runs;
int longest;

int main() {
  int at = 0;
  #pragma dswp
  while (at < input_len) {
    int pixel = input[at];
    int first = at;
    at = at + 1;
    while (at < input_len && at - first < 255 && input[at] == pixel) {
      at = at + 1;
    }

    int length = at - first;
    runs = runs + 1;
    if (length > longest) {
      longest = length;
    }
    print(length);
    print(pixel);
  }
}
