/* Rows of the Mandelbrot set. The input is the left and the upper border, the width
   of a pixel, all in ten-thousandths, and the number of rows. A row is printed as a
   number whose eighteen digits are its pixels, from 1, which escapes at once, to 9,
   which doesn't in 40 steps. */
int inside;

int main() {
  int left = input[0];
  int top = input[1];
  int width = input[2];
  int rows = input[3];
  #pragma dswp
  for (int row = 0; row < rows; row = row + 1) {
    int picture = 0;
    int stayed = 0;
    for (int column = 0; column < 18; column = column + 1) {
      int x = 0;
      int y = 0;
      int steps = 0;
      while (steps < 40 && x * x + y * y <= 400000000) {
        int next = (x * x - y * y) / 10000 + left + column * width;
        y = 2 * x * y / 10000 + top - row * width;
        x = next;
        steps = steps + 1;
      }
      stayed = stayed + (steps == 40);
      picture = picture * 10 + 1 + steps / 5;
    }

    inside = inside + stayed;
    print(picture);
  }
}
