/* A map from the echoes of a scanner that stands at the middle of its lower border:
   each is a pair, an angle in tenths of a degree from the right, up to 1800, and a
   distance. Counts the echoes in each square of a grid of 32 columns and 16 rows,
   whose squares are 64 wide. The sine is 4 p / (40500 - p), where p is a (180 - a) and
   a has degrees (Bhaskara, 7th century), and the cosine comes from half the angle; both
   are in ten-thousandths. */
int counts[512];
int outside;
int greatest;

int main() {
  #pragma dswp
  for (int at = 0; at + 1 < input_len; at = at + 2) {
    int angle = input[at];
    int distance = input[at + 1];

    int product = angle * (1800 - angle);
    int sine = 40000 * product / (4050000 - product);
    /* of half the angle, whose cosine is never negative */
    int half = 40000 * (3240000 - angle * angle) / (12960000 + angle * angle);
    int cosine = 2 * half * half / 10000 - 10000;
    int across = 1024 * 10000 + distance * cosine;
    int column = across / 640000;
    int row = distance * sine / 640000;

    if (across < 0 || column >= 32 || row >= 16) {
      outside = outside + 1;
    } else {
      counts[row * 32 + column] = counts[row * 32 + column] + 1;
      if (counts[row * 32 + column] > greatest) {
        greatest = counts[row * 32 + column];
      }
    }
  }
}
