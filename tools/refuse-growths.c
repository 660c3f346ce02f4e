/* An allocator that refuses one call, whose number is in REFUSE, and says in the file REFUSED that it did. Threads share the count. */

#include <errno.h>
#include <fcntl.h>
#include <stdlib.h>
#include <unistd.h>
extern void *__libc_malloc(size_t), *__libc_calloc(size_t, size_t), *__libc_realloc(void *, size_t),
    *__libc_memalign(size_t, size_t);
static long left = -1;
__attribute__((constructor)) static void start(void) {
    const char *number = getenv("REFUSE");
    left = number ? atol(number) : -1;
}
static int refused(void) {
    if (__atomic_load_n(&left, __ATOMIC_SEQ_CST) <= 0 || __atomic_sub_fetch(&left, 1, __ATOMIC_SEQ_CST) != 0) return 0;
    int file = open(getenv("REFUSED"), O_WRONLY | O_CREAT, 0600);
    if (file >= 0) close(file);
    errno = ENOMEM;
    return 1;
}
void *malloc(size_t n) { return refused() ? NULL : __libc_malloc(n); }
void *calloc(size_t n, size_t m) { return refused() ? NULL : __libc_calloc(n, m); }
void *realloc(void *p, size_t n) { return refused() ? NULL : __libc_realloc(p, n); }
void *aligned_alloc(size_t a, size_t n) { return refused() ? NULL : __libc_memalign(a, n); }
int posix_memalign(void **p, size_t a, size_t n) {
    return refused() || !(*p = __libc_memalign(a, n)) ? ENOMEM : 0;
}
