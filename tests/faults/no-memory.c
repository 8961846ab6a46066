/* One allocation that is refused, for tests/faults/no-memory.sh: put before a program's libraries (LD_PRELOAD), it refuses the
 * allocation whose number REFUSED says, counted from 1, and none else; then it makes the file that TOLD names. */
#define _GNU_SOURCE
#include <errno.h>
#include <fcntl.h>
#include <stdatomic.h>
#include <stdlib.h>
#include <unistd.h>

void *__libc_malloc(size_t);
void *__libc_calloc(size_t, size_t);
void *__libc_realloc(void *, size_t);

static atomic_ulong count;
static unsigned long refused;

__attribute__((constructor)) static void begin(void) {
    const char *number = getenv("REFUSED");
    refused = number ? strtoul(number, NULL, 10) : 0;
    atomic_store(&count, 0);
}

static int refuses(void) {
    if (atomic_fetch_add(&count, 1) + 1 != refused) return 0;
    close(open(getenv("TOLD"), O_WRONLY | O_CREAT, 0666));
    errno = ENOMEM;
    return 1;
}

void *malloc(size_t size) { return refuses() ? NULL : __libc_malloc(size); }
void *calloc(size_t many, size_t size) { return refuses() ? NULL : __libc_calloc(many, size); }
void *realloc(void *block, size_t size) { return refuses() ? NULL : __libc_realloc(block, size); }
