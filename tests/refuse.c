/* Refuses one growth: of all calls of malloc, calloc, realloc and the aligned kinds, counted over all threads, the one whose
   number is LYNX_REFUSED answers that there is no memory. The file LYNX_TOLD is made once that has come. Preloaded by
   tests/test_refused.py. */
#define _GNU_SOURCE
#include <errno.h>
#include <fcntl.h>
#include <stdlib.h>
#include <unistd.h>

extern void *__libc_malloc(size_t size);
extern void *__libc_calloc(size_t count, size_t size);
extern void *__libc_realloc(void *old, size_t size);
extern void *__libc_memalign(size_t align, size_t size);

static unsigned long calls, refused;

__attribute__((constructor)) static void begin(void) {
    const char *number = getenv("LYNX_REFUSED");
    refused = number ? strtoul(number, NULL, 10) : 0;
    __atomic_store_n(&calls, 0, __ATOMIC_SEQ_CST);
}

static int is_refused(void) {
    if (refused == 0 || __atomic_add_fetch(&calls, 1, __ATOMIC_SEQ_CST) != refused)
        return 0;
    const char *told = getenv("LYNX_TOLD");
    int file = told ? open(told, O_WRONLY | O_CREAT, 0600) : -1;
    if (file >= 0)
        close(file);
    errno = ENOMEM;
    return 1;
}

void *malloc(size_t size) { return is_refused() ? NULL : __libc_malloc(size); }

void *calloc(size_t count, size_t size) { return is_refused() ? NULL : __libc_calloc(count, size); }

void *realloc(void *old, size_t size) { return is_refused() ? NULL : __libc_realloc(old, size); }

void *memalign(size_t align, size_t size) { return is_refused() ? NULL : __libc_memalign(align, size); }

void *aligned_alloc(size_t align, size_t size) { return memalign(align, size); }

int posix_memalign(void **made, size_t align, size_t size) {
    void *found = memalign(align, size);
    if (found == NULL)
        return ENOMEM;
    *made = found;
    return 0;
}
