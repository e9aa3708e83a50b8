/* Smooths a series of readings. A reading that is further than `reach` from
   the level is dropped, unless three in a row were: then the level has moved,
   and the filter starts again from there. Prints the level after each reading. */
int reach = 40;
int level;
int dropped;
int restarts;
int in_a_row;

void accept(int reading) {
  level = level + (reading - level) / 4;
  in_a_row = 0;
}

void restart(int reading) {
  level = reading;
  in_a_row = 0;
  restarts = restarts + 1;
}

int main() {
  int i = 0;
  if (input_len > 0) {
    level = input[0];
  }
  #pragma dswp
  while (i < input_len) {
    int reading = input[i];
    i = i + 1;
    if (reading - level <= reach && level - reading <= reach) {
      accept(reading);
    } else {
      dropped = dropped + 1;
      in_a_row = in_a_row + 1;
      if (in_a_row == 3) {
        restart(reading);
      }
    }
    print(level);
  }
}
