#include <stdio.h>

enum { last = 20000, rounds = 40 };

int main(void) {
  static char story[last + 1];
  static int often[128];
  int seed = 1, count = 0, longest = 0;
  for (int round = 1; round <= rounds; round++) {
    for (int i = 1; i <= last; i++) {
      seed = (seed * 1309 + 13849) % 65536;
      int code = seed / 2048;
      story[i] = code < 26 ? 'a' + code : ' ';
    }
    story[last] = ' ';
    int blank = 0;
    for (int i = 1; i <= last; i++) {
      char next = story[i];
      if (next >= 'a' && next <= 'z') {
        often[(int)next]++;
      } else {
        int length = i - blank - 1;
        if (length > 0) count++;
        if (length > longest) longest = length;
        blank = i;
      }
    }
  }
  char most = 'a';
  for (char c = 'b'; c <= 'z'; c++)
    if (often[(int)c] > often[(int)most]) most = c;
  printf("%d%3d %c%6d\n", count, longest, most, often[(int)most]);
}
