/* Sorts records by insertion: each is a year, a month, a day, and an amount. Its key
   is the number of its day since the first of March of the year 0, by the calendar of
   Gregory. Records of one day stay in their order. Prints the amounts as they stand
   then, the earliest day first. */
int days[256];
int amounts[256];
int records;
int moves;

int main() {
  #pragma dswp
  for (int at = 0; at + 3 < input_len; at = at + 4) {
    /* a year from March on, so that the day that comes every fourth year is its last */
    int month = (input[at + 1] + 9) % 12;
    int year = input[at] - month / 10;
    int day = year * 365 + year / 4 - year / 100 + year / 400 + (month * 306 + 5) / 10 + input[at + 2] - 1;
    int amount = input[at + 3];

    int place = records;
    while (place > 0 && days[place - 1] > day) {
      days[place] = days[place - 1];
      amounts[place] = amounts[place - 1];
      place = place - 1;
      moves = moves + 1;
    }
    days[place] = day;
    amounts[place] = amount;
    records = records + 1;
  }

  for (int k = 0; k < records; k = k + 1) {
    print(amounts[k]);
  }
}
