#include <stdbool.h>
#include <stdio.h>

#ifdef COUNT
#define TURN(loop) turns[loop]++
static long turns[4];
#else
#define TURN(loop)
#endif

int main(void) {
  int found = 0, root = 1;
  for (int n = 2; n <= 400000; n++) {
    TURN(0);
    if (root < 1000)
      if ((root + 1) * (root + 1) <= n) {
        TURN(2);
        root = root + 1;
      }
    bool prime = true;
    int divisor = 2;
    while (divisor <= root && prime) {
      TURN(1);
      prime = n % divisor != 0;
      divisor = divisor + 1;
    }
    if (prime) {
      TURN(3);
      found = found + 1;
    }
  }
#ifdef COUNT
  printf("%ld %ld %ld %ld\n", turns[0], turns[1], turns[2], turns[3]);
#else
  printf("%d\n", found);
#endif
}
