/* The price of a call option by Monte Carlo simulation (Boyle 1977), in fixed point
   with four digits behind the point. The input is the price of the share, the price
   at which it may be bought, the drift and the volatility of a step in millionths,
   the number of steps, the number of paths, and a seed. The seeds of the paths come
   from one generator, and each path draws from one of its own, which begins there. */
int bought;
int sum;
int highest;

int main() {
  int share = input[0];
  int strike = input[1];
  int drift = input[2];
  int volatility = input[3];
  int steps = input[4];
  int paths = input[5];
  int seed = input[6];
  #pragma dswp
  for (int path = 0; path < paths; path = path + 1) {
    seed = (seed * 1103515245 + 12345) % 2147483648;

    /* The sum of three draws of ten bits has the deviation 512, and is nearly normal. */
    int state = seed % 2147483646 + 1;
    int price = share;
    for (int step = 0; step < steps; step = step + 1) {
      state = state * 16807 % 2147483647;
      int normal = 2 * (state % 1024 + state / 1024 % 1024 + state / 1048576 % 1024) - 3069;
      price = price + (price * drift + price * volatility / 1024 * normal) / 1000000;
    }
    int payoff = 0;
    if (price > strike) {
      payoff = price - strike;
    }

    sum = sum + payoff;
    bought = bought + (payoff > 0);
    if (price > highest) {
      highest = price;
    }
  }
  print(sum / paths);
}
