/* A pass of Kernighan and Lin (1970): the nodes of a graph are in two halves, and
   again and again that pair is swapped which lessens the cost of the edges between
   the halves most. The input is the number of nodes and the matrix of costs. Each
   iteration finds the best partner of one node of the first half; behind the last
   of them the best pair is swapped, and its gain printed. A swapped node stays. */
int nodes;
/* of each node: the cost of its edges to the other half less those to its own */
int difference[128];
int swapped[128];
int best_gain = -1000000;
int best_first;
int best_second;
int gain_so_far;
int best_so_far;

void find_differences() {
  for (int a = 0; a < nodes; a = a + 1) {
    for (int b = 0; b < nodes; b = b + 1) {
      int sign = 2 * ((a < nodes / 2) != (b < nodes / 2)) - 1;
      difference[a] = difference[a] + sign * input[1 + a * nodes + b];
    }
  }
}

void swap_best_pair() {
  swapped[best_first] = 1;
  swapped[best_second] = 1;
  for (int node = 0; node < nodes; node = node + 1) {
    int change = 2 * (input[1 + node * nodes + best_first] - input[1 + node * nodes + best_second]);
    difference[node] = difference[node] + change * (1 - 2 * (node >= nodes / 2));
  }
  gain_so_far = gain_so_far + best_gain;
  if (gain_so_far > best_so_far) {
    best_so_far = gain_so_far;
  }
  print(best_gain);
  best_gain = -1000000;
}

int main() {
  nodes = input[0];
  find_differences();
  int half = nodes / 2;
  #pragma dswp
  for (int turn = 0; turn < half * half; turn = turn + 1) {
    int first = turn % half;
    int second = half;
    int gain = -1000000;
    if (!swapped[first]) {
      for (int b = half; b < nodes; b = b + 1) {
        int gained = difference[first] + difference[b] - 2 * input[1 + first * nodes + b];
        if (gained > gain && !swapped[b]) {
          gain = gained;
          second = b;
        }
      }
    }

    if (gain > best_gain) {
      best_gain = gain;
      best_first = first;
      best_second = second;
    }
    if (first == half - 1) {
      swap_best_pair();
    }
  }
}
