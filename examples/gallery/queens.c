/* In how many ways can eight queens stand on a board, none attacking another one,
   if the first rows are given? Each word of the input gives the columns of the first
   queens as digits from 1 to 8. A board is such a number, too: placing a queen puts
   a digit behind it, and going back takes the last one away. Prints the ways. */
int boards;
int hopeless;
int ways;

int main() {
  #pragma dswp
  for (int i = 0; i < input_len; i = i + 1) {
    int board = input[i];
    int given = 0;
    for (int rest = board; rest > 0; rest = rest / 10) {
      given = given + 1;
    }

    int found = 0;
    int row = given;
    int column = 1;
    while (row >= given) {
      int attacked = column > 8;
      int distance = 1;
      for (int above = board; above > 0 && !attacked; above = above / 10) {
        int apart = above % 10 - column;
        attacked = apart == 0 || apart == distance || apart == -distance;
        distance = distance + 1;
      }
      if (column > 8) {
        column = board % 10 + 1;
        board = board / 10;
        row = row - 1;
      } else if (attacked) {
        column = column + 1;
      } else if (row == 7) {
        found = found + 1;
        column = column + 1;
      } else {
        board = board * 10 + column;
        row = row + 1;
        column = 1;
      }
    }

    boards = boards + 1;
    hopeless = hopeless + (found == 0);
    ways = ways + found;
    print(found);
  }
}
