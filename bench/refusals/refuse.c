/* Preloaded into a program: refuses the growth of memory whose number REFUSED_GROWTH has, counted from 1, and then
   writes a byte to the descriptor REFUSED_TO. Without the variables it refuses nothing. */
#include <stddef.h>
#include <stdlib.h>
#include <unistd.h>

extern void *__libc_malloc(size_t);
extern void *__libc_realloc(void *, size_t);

static long left = -1;
static int told = -1;

__attribute__((constructor)) static void begin(void) {
    const char *number = getenv("REFUSED_GROWTH"), *to = getenv("REFUSED_TO");
    if (number && to) {
        left = atol(number);
        told = atoi(to);
    }
}

static int refuses(void) {
    if (left <= 0 || --left > 0) return 0;
    if (write(told, "x", 1) != 1) _exit(99);
    return 1;
}

void *malloc(size_t size) { return refuses() ? NULL : __libc_malloc(size); }
void *realloc(void *at, size_t size) { return refuses() ? NULL : __libc_realloc(at, size); }
