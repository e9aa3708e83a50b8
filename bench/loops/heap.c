/* A binary heap of 127 words: each further word takes the place of the least, and sinks until the order holds. */
int heap[127];
int size;
int moved;

void swap(int a, int b) {
  int held = heap[a];
  heap[a] = heap[b];
  heap[b] = held;
  moved = moved + 1;
}

void sink_down(int from) {
  int at = from;
  int goes_on = 1;
  while (goes_on) {
    int child = 2 * at + 1;
    goes_on = 0;
    if (child < size) {
      if (child + 1 < size && heap[child + 1] < heap[child]) {
        child = child + 1;
      }
      if (heap[child] < heap[at]) {
        swap(child, at);
        at = child;
        goes_on = 1;
      }
    }
  }
}

int main() {
  #pragma dswp
  for (int i = 0; i < input_len; i = i + 1) {
    int word = (input[i] * 7919 + i * 31) % 65536;
    if (size < 127) {
      int at = size;
      heap[size] = word;
      size = size + 1;
      while (at > 0 && heap[at] < heap[(at - 1) / 2]) {
        swap(at, (at - 1) / 2);
        at = (at - 1) / 2;
      }
    } else {
      heap[0] = word;
      sink_down(0);
    }
  }
}
