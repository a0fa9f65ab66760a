#include <stdio.h>

enum { things = 200, most = 10000 };

int main(void) {
  static int weight[things + 1], worth[things + 1], best[most + 1];
  int seed = 1;
  for (int i = 1; i <= things; i++) {
    seed = (seed * 1309 + 13849) % 65536;
    weight[i] = seed % 500 + 1;
    seed = (seed * 1309 + 13849) % 65536;
    worth[i] = seed % 500 + 1;
  }
  for (int i = 1; i <= things; i++) {
    int heavy = weight[i];
    for (int total = most; total >= heavy; total--) {
      int gained = best[total - heavy] + worth[i];
      if (gained > best[total]) best[total] = gained;
    }
  }
  printf("%d\n", best[most]);
}
