#include <stdbool.h>
#include <stdio.h>

enum { size = 11 };

static bool column_free[size + 1], rising[2 * size + 1], falling[2 * size];
static int found;

static void place(int row) {
  for (int column = 1; column <= size; column++)
    if (column_free[column] && rising[row + column] && falling[row - column + size]) {
      if (row == size) {
        found++;
      } else {
        column_free[column] = rising[row + column] = falling[row - column + size] = false;
        place(row + 1);
        column_free[column] = rising[row + column] = falling[row - column + size] = true;
      }
    }
}

int main(void) {
  for (int i = 1; i <= size; i++) column_free[i] = true;
  for (int i = 2; i <= 2 * size; i++) rising[i] = true;
  for (int i = 1; i < 2 * size; i++) falling[i] = true;
  place(1);
  printf("%d\n", found);
}
