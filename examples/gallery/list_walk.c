/* Walks a list of loans. A node is four words of the input: the place of the next
   node, or -1, and then what is owed, the yearly rate in hundredths of a percent,
   and what is paid each month. The input begins with the place of the first node.
   For each loan the months until it is paid off and its interest are worked out;
   one that isn't paid off after 30 years is given up. This is the loop of Ottoni
   et al. (2005): the walk goes ahead, and the work at the nodes comes behind it. */
int loans;
int interest;
int longest;
int given_up;

int main() {
  int node = input[0];
  #pragma dswp
  while (node >= 0) {
    int here = node;
    node = input[here];

    int owed = input[here + 1];
    int rate = input[here + 2];
    int payment = input[here + 3];
    int rest = owed;
    int months = 0;
    while (rest > 0 && months < 360) {
      rest = rest + (rest * rate + 60000) / 120000 - payment;
      months = months + 1;
    }
    int paid_off = rest <= 0;
    /* what was paid less what was borrowed; the last payment is as small as need be */
    int cost = months * payment + rest - owed;

    loans = loans + 1;
    if (paid_off) {
      interest = interest + cost;
      if (months > longest) {
        longest = months;
      }
    } else {
      given_up = given_up + 1;
    }
  }
}
