#include <stdio.h>

enum { last = 100, bookings = 100000 };

struct account {
  int number, moves, balance;
};

int main(void) {
  static struct account book[last + 1];
  for (int i = 1; i <= last; i++) book[i].number = i;
  int seed = 1;
  for (int booking = 1; booking <= bookings; booking++) {
    seed = (seed * 1309 + 13849) % 65536;
    int wanted = (seed / 64) * (seed / 64) / 1024 * last / 1024 + 1, i = 1;
    while (i < last && book[i].number != wanted) i++;
    book[i].moves++;
    book[i].balance = (book[i].balance + seed) % 1000003;
    if (i > 1) {
      struct account other = book[i - 1];
      book[i - 1] = book[i];
      book[i] = other;
    }
  }
  int sum = 0;
  for (int i = 1; i <= last; i++)
    sum = (sum * 31 + book[i].number * 7 + book[i].moves + book[i].balance) % 1000003;
  printf("%d\n", sum);
}
