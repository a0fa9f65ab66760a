#include <stdio.h>

#ifdef COUNT
#define TURN(loop) turns[loop]++
static long turns[4];
#else
#define TURN(loop)
#endif

int main(void) {
  int longest = 0, found = 1;
  for (int start = 1; start <= 113382; start++) {
    TURN(0);
    int n = start, steps = 0;
    while (n != 1) {
      if (n % 2 != 0) {
        TURN(1);
        n = 3 * n + 1;
      } else {
        TURN(2);
        n = n / 2;
      }
      steps = steps + 1;
    }
    if (steps > longest) {
      TURN(3);
      longest = steps;
      found = start;
    }
  }
#ifdef COUNT
  printf("%ld %ld %ld %ld\n", turns[0], turns[1], turns[2], turns[3]);
#else
  printf("%d %3d\n", found, longest);
#endif
}
