#include <stdio.h>

int main(void) {
  static int a[3001];
  int seed = 1;
  for (int i = 1; i <= 3000; i++) {
    seed = (seed * 1309 + 13849) % 65536;
    a[i] = seed;
  }
  for (int i = 3000; i >= 2; i--)
    for (int j = 1; j <= i - 1; j++)
      if (a[j] > a[j + 1]) {
        int other = a[j];
        a[j] = a[j + 1];
        a[j + 1] = other;
      }
  printf("%d %d %d\n", a[1], a[1500], a[3000]);
}
