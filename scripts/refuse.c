/* Preloaded by scripts/refused.sh: the Nth request for memory that the program makes is refused, N from REFUSE, and its Nth read
   fails as one that a signal interrupts, N from INTERRUPT. Where that was so, the file that REFUSED_MARK names is made. */
#define _GNU_SOURCE
#include <dlfcn.h>
#include <errno.h>
#include <fcntl.h>
#include <stdatomic.h>
#include <stdlib.h>
#include <unistd.h>

static _Atomic long requests;

static void leave_mark(void) {
    const char *mark = getenv("REFUSED_MARK");
    if (!mark) return;
    int file = open(mark, O_CREAT | O_WRONLY, 0600);
    if (file >= 0) close(file);
}

static int refuses(void) {
    static _Atomic long wanted = -1;
    if (atomic_load(&wanted) < 0) {
        const char *word = getenv("REFUSE");
        atomic_store(&wanted, word ? atol(word) : 0);
    }
    if (atomic_fetch_add(&requests, 1) + 1 != atomic_load(&wanted)) return 0;
    leave_mark();
    errno = ENOMEM;
    return 1;
}

ssize_t read(int file, void *bytes, size_t count) {
    static _Atomic long reads;
    static ssize_t (*real)(int, void *, size_t);
    if (!real) real = (ssize_t (*)(int, void *, size_t))dlsym(RTLD_NEXT, "read");
    const char *word = getenv("INTERRUPT");
    if (!word || atomic_fetch_add(&reads, 1) + 1 != atol(word)) return real(file, bytes, count);
    leave_mark();
    errno = EINTR;
    return -1;
}

void *malloc(size_t size) {
    static void *(*real)(size_t);
    if (!real) real = (void *(*)(size_t))dlsym(RTLD_NEXT, "malloc");
    return refuses() ? NULL : real(size);
}

void *realloc(void *block, size_t size) {
    static void *(*real)(void *, size_t);
    if (!real) real = (void *(*)(void *, size_t))dlsym(RTLD_NEXT, "realloc");
    return refuses() ? NULL : real(block, size);
}

void *aligned_alloc(size_t alignment, size_t size) {
    static void *(*real)(size_t, size_t);
    if (!real) real = (void *(*)(size_t, size_t))dlsym(RTLD_NEXT, "aligned_alloc");
    return refuses() ? NULL : real(alignment, size);
}

int posix_memalign(void **block, size_t alignment, size_t size) {
    static int (*real)(void **, size_t, size_t);
    if (!real) real = (int (*)(void **, size_t, size_t))dlsym(RTLD_NEXT, "posix_memalign");
    return refuses() ? ENOMEM : real(block, alignment, size);
}

/* dlsym itself may ask for zeroed memory before the real calloc is known: that is answered from here, and not counted. */
void *calloc(size_t count, size_t size) {
    static char first[4096];
    static size_t used;
    static int looking;
    static void *(*real)(size_t, size_t);
    if (!real) {
        if (looking) {
            size_t length = (count * size + 15) / 16 * 16;
            if (used + length > sizeof first) return NULL;
            used += length;
            return first + used - length;
        }
        looking = 1;
        real = (void *(*)(size_t, size_t))dlsym(RTLD_NEXT, "calloc");
    }
    return refuses() ? NULL : real(count, size);
}
