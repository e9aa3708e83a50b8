/* The last layer of a neural network in fixed point, as small processors run it: six
   neurons of sixteen inputs each, in 256ths. The input is a bias and sixteen weights
   of each neuron, and then sixteen values for each sample. Prints the neuron that
   answers most, which is the class of the sample. */
int bias[6];
int weights[96];
int classes[6];
int sum_of_answers;

void read_network() {
  for (int neuron = 0; neuron < 6; neuron = neuron + 1) {
    bias[neuron] = input[neuron * 17];
    for (int k = 0; k < 16; k = k + 1) {
      weights[neuron * 16 + k] = input[neuron * 17 + 1 + k];
    }
  }
}

int main() {
  read_network();
  #pragma dswp
  for (int at = 102; at + 15 < input_len; at = at + 16) {
    int class = 0;
    int most = -1000000000;
    for (int w = 0; w < 96; w = w + 16) {
      int sum = weights[w] * input[at] + weights[w + 1] * input[at + 1] + weights[w + 2] * input[at + 2]
          + weights[w + 3] * input[at + 3] + weights[w + 4] * input[at + 4] + weights[w + 5] * input[at + 5]
          + weights[w + 6] * input[at + 6] + weights[w + 7] * input[at + 7];
      int answer = bias[w / 16] + (sum + weights[w + 8] * input[at + 8] + weights[w + 9] * input[at + 9]
          + weights[w + 10] * input[at + 10] + weights[w + 11] * input[at + 11] + weights[w + 12] * input[at + 12]
          + weights[w + 13] * input[at + 13] + weights[w + 14] * input[at + 14] + weights[w + 15] * input[at + 15]) / 256;
      if (answer > most) {
        most = answer;
        class = w / 16;
      }
    }

    classes[class] = classes[class] + 1;
    sum_of_answers = sum_of_answers + most;
    print(class);
  }
}
