/* A sieve of the square-free numbers, those that no square above 1 divides: the
   multiples of each square are struck out, in segments of 64 numbers. The input is
   where to begin and up to where to go. Prints how many there are in each segment;
   of all numbers they are six in ten, 6 / pi^2. */
int struck[64];
int found;
int numbers;

int main() {
  int end = input[1];
  #pragma dswp
  for (int low = input[0]; low < end; low = low + 64) {
    for (int place = 0; place < 64; place = place + 1) {
      struck[place] = 0;
    }
    for (int root = 2; root * root < low + 64; root = root + 1) {
      int square = root * root;
      for (int place = (square - low % square) % square; place < 64; place = place + square) {
        struck[place] = 1;
      }
    }

    int left = 64;
    for (int place = 0; place < 64; place = place + 1) {
      left = left - struck[place];
    }
    found = found + left;
    numbers = numbers + 64;
    print(left);
  }
}
