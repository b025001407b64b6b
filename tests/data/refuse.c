/* A library that is loaded before the program's own and refuses memory: REFUSE is the number of the first call that is
   refused, counted from 1 once the program begins, and REFUSE_ALL says that all later ones are refused as well. A byte
   goes to the descriptor REFUSE_TELL for each refused call. */
#include <stddef.h>
#include <stdlib.h>
#include <unistd.h>

extern void *__libc_malloc(size_t);
extern void *__libc_calloc(size_t, size_t);
extern void *__libc_realloc(void *, size_t);

static long first, calls;
static int all, tell = -1;

__attribute__((constructor)) static void begin(void) {
    const char *number = getenv("REFUSE"), *descriptor = getenv("REFUSE_TELL");
    all = getenv("REFUSE_ALL") != NULL;
    tell = descriptor ? atoi(descriptor) : -1;
    first = number ? atol(number) : 0;
}

static int refuses(void) {
    if (first == 0 || (++calls != first && !(all && calls > first)))
        return 0;
    if (write(tell, "x", 1) != 1)
        abort();
    return 1;
}

void *malloc(size_t size) { return refuses() ? NULL : __libc_malloc(size); }
void *calloc(size_t count, size_t size) { return refuses() ? NULL : __libc_calloc(count, size); }
void *realloc(void *old, size_t size) { return refuses() ? NULL : __libc_realloc(old, size); }
