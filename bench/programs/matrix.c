#include <stdio.h>

int main(void) {
  static int a[101][101], b[101][101], c[101][101];
  for (int i = 1; i <= 100; i++)
    for (int j = 1; j <= 100; j++) {
      a[i][j] = i + j;
      b[i][j] = i - j;
    }
  for (int round = 1; round <= 5; round++)
    for (int i = 1; i <= 100; i++)
      for (int j = 1; j <= 100; j++) {
        int sum = 0;
        for (int k = 1; k <= 100; k++) sum += a[i][k] * b[k][j];
        c[i][j] = sum;
      }
  int total = 0;
  for (int i = 1; i <= 100; i++) total += c[i][1];
  printf("%d\n", total);
}
