/* Refuses one allocation of a process: the one whose number, from 1, REFUSE gives. At the end of the
   process it tells on file descriptor 9 how many allocations there were. For tools/refuse-memory and
   tools/refuse-test-memory only; nothing of the product is C. */
#define _GNU_SOURCE
#include <dlfcn.h>
#include <stddef.h>
#include <stdio.h>
#include <stdlib.h>
#include <unistd.h>

extern void *__libc_malloc(size_t size);
extern void *__libc_realloc(void *old, size_t size);

static long refused = -1;
static long count;

static int is_refused(void) {
    if (refused < 0) {
        const char *number = getenv("REFUSE");
        refused = number ? atol(number) : 0;
    }
    return ++count == refused;
}

void *malloc(size_t size) { return is_refused() ? NULL : __libc_malloc(size); }

void *realloc(void *old, size_t size) { return is_refused() ? NULL : __libc_realloc(old, size); }

__attribute__((destructor)) static void tell(void) {
    char line[32];
    int length = snprintf(line, sizeof line, "%ld\n", count);
    if (length > 0 && write(9, line, (size_t)length) < 0) _exit(9);
}
