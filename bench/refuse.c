// A library to be loaded before the C library: the Nth call of malloc, calloc, realloc, aligned_alloc or posix_memalign fails, for
// the N in the environment variable REFUSE. Where a run has fewer such calls, it says `not reached` on the standard error.
#define _GNU_SOURCE
#include <dlfcn.h>
#include <errno.h>
#include <stdlib.h>
#include <unistd.h>

static long calls, refused = -1;

static int refuses(void) {
    if (refused < 0) {
        const char *n = getenv("REFUSE");
        refused = n ? atol(n) : 0;
    }
    if (++calls != refused) return 0;
    errno = ENOMEM;
    return 1;
}

__attribute__((destructor)) static void told(void) {
    if (refused > calls) (void)!write(2, "not reached\n", 12);
}

extern void *__libc_malloc(size_t), *__libc_calloc(size_t, size_t), *__libc_realloc(void *, size_t), *__libc_memalign(size_t, size_t);

void *malloc(size_t n) { return refuses() ? NULL : __libc_malloc(n); }
void *calloc(size_t m, size_t n) { return refuses() ? NULL : __libc_calloc(m, n); }
void *realloc(void *p, size_t n) { return refuses() ? NULL : __libc_realloc(p, n); }
void *aligned_alloc(size_t a, size_t n) { return refuses() ? NULL : __libc_memalign(a, n); }
int posix_memalign(void **p, size_t a, size_t n) {
    if (refuses()) return ENOMEM;
    *p = __libc_memalign(a, n);
    return *p ? 0 : ENOMEM;
}
