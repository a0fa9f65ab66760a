#include <stdint.h>
#include <stdio.h>

enum { members = 32, sets = 1600, last = 51199, rounds = 20 };

int main(void) {
  static uint32_t prime[sets];
  int count = 0;
  for (int round = 1; round <= rounds; round++) {
    for (int i = 0; i < sets; i++) prime[i] = UINT32_MAX;
    prime[0] &= ~(uint32_t)3;
    for (int i = 2; i <= last; i++)
      if (prime[i / members] >> i % members & 1) {
        count++;
        for (int multiple = i + i; multiple <= last; multiple += i)
          prime[multiple / members] &= ~((uint32_t)1 << multiple % members);
      }
  }
  printf("%d\n", count);
}
