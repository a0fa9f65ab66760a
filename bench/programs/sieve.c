#include <stdio.h>

int main(void) {
  static char prime[50001];
  int count = 0;
  for (int round = 1; round <= 40; round++) {
    for (int i = 2; i <= 50000; i++) prime[i] = 1;
    for (int i = 2; i <= 50000; i++)
      if (prime[i]) {
        count++;
        for (int multiple = i + i; multiple <= 50000; multiple += i) prime[multiple] = 0;
      }
  }
  printf("%d\n", count);
}
