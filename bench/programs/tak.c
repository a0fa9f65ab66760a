#include <stdio.h>

enum { first = 24, second = 17, third = 8 };

__attribute__((noinline)) static int t(int x, int y, int z) {
  return y < x ? t(t(x - 1, y, z), t(y - 1, z, x), t(z - 1, x, y)) : z;
}

int main(void) {
  printf("%d\n", t(first, second, third));
}
