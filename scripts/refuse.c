/* Refuses one request for memory of the program that it is loaded into, the one whose number is in REFUSED, and then writes
   a byte to descriptor 9: so whoever started the program can tell whether it asked so often. For glibc; see refused-memory. */
#include <errno.h>
#include <stdlib.h>
#include <unistd.h>

void *__libc_malloc(size_t);
void *__libc_calloc(size_t, size_t);
void *__libc_realloc(void *, size_t);
void *__libc_memalign(size_t, size_t);

/* how many requests are still to come, with the one that is refused */
static long left;

__attribute__((constructor)) static void begin(void) {
    const char *number = getenv("REFUSED");
    __atomic_store_n(&left, number ? atol(number) : 0, __ATOMIC_SEQ_CST);
}

static int is_refused(void) {
    if (__atomic_sub_fetch(&left, 1, __ATOMIC_SEQ_CST) != 0) return 0;
    if (write(9, "r", 1) != 1) abort();
    errno = ENOMEM;
    return 1;
}

void *malloc(size_t size) { return is_refused() ? NULL : __libc_malloc(size); }
void *calloc(size_t count, size_t size) { return is_refused() ? NULL : __libc_calloc(count, size); }
void *realloc(void *old, size_t size) { return is_refused() ? NULL : __libc_realloc(old, size); }
void *memalign(size_t align, size_t size) { return is_refused() ? NULL : __libc_memalign(align, size); }
void *aligned_alloc(size_t align, size_t size) { return memalign(align, size); }

int posix_memalign(void **at, size_t align, size_t size) {
    void *made = memalign(align, size);
    if (!made) return ENOMEM;
    *at = made;
    return 0;
}
