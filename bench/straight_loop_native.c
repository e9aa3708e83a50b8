#include <inttypes.h>
#include <stdio.h>

int main(void) {
  volatile int64_t s = 0;
  volatile int64_t i = 0;
  while (i < 500000) {
    s = s + i * 3;
    s = s % 1000003;
    i = i + 1;
  }
  printf("s %" PRId64 "\n", s);
}
