/* Preloaded by scripts/threads.sh and scripts/pipes.sh: each write on the descriptor WRITE_FILE takes no more bytes than WRITE_SHORT says, and the Nth of
   them, N from WRITE_FAILS, takes none and fails with the error WRITE_ERROR: ENOSPC or EINTR. Where one has failed, the file that
   WRITE_MARK names is made. Other descriptors are written as they are. So it is with reads of the standard input by READ_SHORT and
   READ_FAILS: the Nth fails with the error EIO. */
#define _GNU_SOURCE
#include <dlfcn.h>
#include <errno.h>
#include <fcntl.h>
#include <stdatomic.h>
#include <stdlib.h>
#include <string.h>
#include <unistd.h>

static long number(const char *name) {
    const char *word = getenv(name);
    return word ? atol(word) : 0;
}

static void leave_mark(void) {
    const char *mark = getenv("WRITE_MARK");
    if (!mark) return;
    int file = open(mark, O_CREAT | O_WRONLY, 0600);
    if (file >= 0) close(file);
}

ssize_t write(int file, const void *bytes, size_t count) {
    static _Atomic long writes;
    static ssize_t (*real)(int, const void *, size_t);
    if (!real) real = (ssize_t (*)(int, const void *, size_t))dlsym(RTLD_NEXT, "write");
    if (file != number("WRITE_FILE")) return real(file, bytes, count);
    if (atomic_fetch_add(&writes, 1) + 1 == number("WRITE_FAILS")) {
        const char *error = getenv("WRITE_ERROR");
        leave_mark();
        errno = error && strcmp(error, "EINTR") == 0 ? EINTR : ENOSPC;
        return -1;
    }
    size_t most = (size_t)number("WRITE_SHORT");
    return real(file, bytes, most && count > most ? most : count);
}

ssize_t __write(int file, const void *bytes, size_t count) {
    return write(file, bytes, count);
}

ssize_t read(int file, void *bytes, size_t count) {
    static _Atomic long reads;
    static ssize_t (*real)(int, void *, size_t);
    if (!real) real = (ssize_t (*)(int, void *, size_t))dlsym(RTLD_NEXT, "read");
    if (file != 0) return real(file, bytes, count);
    if (atomic_fetch_add(&reads, 1) + 1 == number("READ_FAILS")) {
        leave_mark();
        errno = EIO;
        return -1;
    }
    size_t most = (size_t)number("READ_SHORT");
    return real(file, bytes, most && count > most ? most : count);
}

ssize_t __read(int file, void *bytes, size_t count) {
    return read(file, bytes, count);
}
