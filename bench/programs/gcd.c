#include <stdio.h>

#ifdef COUNT
#define TURN(loop) turns[loop]++
static long turns[3];
#else
#define TURN(loop)
#endif

int main(void) {
  int sum = 0;
  for (int i = 1; i <= 2000; i++) {
    TURN(0);
    for (int j = 1; j <= 2000; j++) {
      TURN(1);
      int a = i, b = j;
      while (b > 0) {
        TURN(2);
        int r = a % b;
        a = b;
        b = r;
      }
      sum = (sum + a) % 1000003;
    }
  }
#ifdef COUNT
  printf("%ld %ld %ld\n", turns[0], turns[1], turns[2]);
#else
  printf("%d\n", sum);
#endif
}
