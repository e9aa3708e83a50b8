/* A string of 32 points, fixed at both ends, that is pulled at one point before
   each time step. Prints the height of the middle after each step. */
int height[32];
int speed[32];
int highest;

int main() {
  #pragma dswp
  for (int t = 0; t < input_len; t = t + 1) {
    int place = input[t];
    height[place] = height[place] + 1000;

    int x = 1;
    while (x < 31) {
      int bend = height[x - 1] - 2 * height[x] + height[x + 1];
      speed[x] = speed[x] + bend / 4 - speed[x] / 64;
      x = x + 1;
    }
    x = 1;
    while (x < 31) {
      height[x] = height[x] + speed[x];
      if (height[x] > highest) {
        highest = height[x];
      }
      x = x + 1;
    }
    print(height[16]);
  }
}
