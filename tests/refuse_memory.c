// Loaded before the C library: refuses the allocation whose number REFUSE has, or each one from the number on that
// REFUSE_FROM has. Where REFUSE_TELL has the number of an open file it tells there the count of all allocations, and
// the number of the one with which a machine is made, 0 where none is.
#include <errno.h>
#include <stdio.h>
#include <stdlib.h>
#include <unistd.h>

// A machine asks for the rows of its 1,000,000 cells, each of at least a bit, which is more than all else that a short
// program asks for at once; and then for the pieces in which it reads and writes.
enum { ROW = 125000, PIECE = 4096, PIECES = 2 };

extern void *__libc_malloc(size_t size);
extern void *__libc_calloc(size_t count, size_t size);
extern void *__libc_realloc(void *old, size_t size);

static unsigned long count;
static unsigned long machine;
static int pieces;

// The number that a variable of the environment has, or another one where it isn't there.
static unsigned long number_of(const char *name, unsigned long other) {
    const char *number = getenv(name);
    return number == NULL ? other : strtoul(number, NULL, 10);
}

static void look_for_machine(size_t size) {
    if (size >= ROW) {
        pieces = PIECES;
    } else if (size == PIECE && pieces > 0) {
        pieces -= 1;
        machine = pieces == 0 ? count : machine;
    }
}

static int is_refused(size_t size) {
    count += 1;
    look_for_machine(size);
    if (count != number_of("REFUSE", 0) && count < number_of("REFUSE_FROM", -1UL)) {
        return 0;
    }
    errno = ENOMEM;
    return 1;
}

void *malloc(size_t size) {
    return is_refused(size) ? NULL : __libc_malloc(size);
}

void *calloc(size_t number, size_t size) {
    return is_refused(number * size) ? NULL : __libc_calloc(number, size);
}

void *realloc(void *old, size_t size) {
    return is_refused(size) ? NULL : __libc_realloc(old, size);
}

__attribute__((destructor)) static void tell(void) {
    unsigned long file = number_of("REFUSE_TELL", 0);
    if (file != 0) {
        dprintf((int)file, "%lu %lu\n", count, machine);
    }
}
