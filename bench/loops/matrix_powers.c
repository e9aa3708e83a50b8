/* A vector, multiplied by a matrix of eight rows for each word, over a small ring of numbers. */
int matrix[64];
int vector[8];
int next[8];
int sum;

void multiply() {
  for (int row = 0; row < 8; row = row + 1) {
    int value = 0;
    for (int column = 0; column < 8; column = column + 1) {
      value = value + matrix[row * 8 + column] * vector[column];
    }
    next[row] = value % 10007;
  }
  for (int row = 0; row < 8; row = row + 1) {
    vector[row] = next[row];
  }
}

int main() {
  for (int k = 0; k < 64; k = k + 1) {
    matrix[k] = (k * k + 3 * k + 1) % 11;
  }
  vector[0] = 1;
  #pragma dswp
  for (int i = 0; i < input_len; i = i + 1) {
    vector[i % 8] = vector[i % 8] + input[i];
    multiply();
    sum = (sum + vector[0]) % 10007;
  }
}
