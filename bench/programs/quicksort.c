#include <stdio.h>

enum { last = 10000, rounds = 20 };

static int a[last + 1];

static void sort(int left, int right) {
  int low = left, high = right, middle = a[(left + right) / 2];
  while (low <= high)
    if (a[low] < middle) {
      low++;
    } else if (a[high] > middle) {
      high--;
    } else {
      int other = a[low];
      a[low++] = a[high];
      a[high--] = other;
    }
  if (left < high) sort(left, high);
  if (low < right) sort(low, right);
}

int main(void) {
  int seed = 1, sum = 0;
  for (int round = 1; round <= rounds; round++) {
    for (int i = 1; i <= last; i++) {
      seed = (seed * 1309 + 13849) % 65536;
      a[i] = seed;
    }
    sort(1, last);
    sum = (sum + a[1] + a[last / 2] + a[last]) % 1000003;
  }
  printf("%d\n", sum);
}
