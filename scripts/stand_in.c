/* Preloaded by scripts/false_programs.sh: the program does with files as a wrong program would, and with all else as it does. STAND_IN says how:
   - `twice`: each file that is read is opened, closed, and opened again;
   - `late`: each file that is made gets `s REFUTED` first, and is made anew;
   - `lengths`: a named pipe is a plain file of one byte;
   - `empties`: at the program's end each plain file is empty that it has read by a path that doesn't begin with a slash;
   - `apart`: each look at a file finds another file.
   Where a named pipe is opened for the second time, nothing waits for its writer: it is empty then. */
#define _GNU_SOURCE
#include <dlfcn.h>
#include <fcntl.h>
#include <poll.h>
#include <pthread.h>
#include <stdarg.h>
#include <stdatomic.h>
#include <stdlib.h>
#include <string.h>
#include <sys/stat.h>
#include <unistd.h>

#define PATHS 1000

typedef int opening(int, const char *, int, ...);

static char *paths[PATHS];
static int path_count;
static pthread_mutex_t lock = PTHREAD_MUTEX_INITIALIZER;

static int is(const char *name) {
    const char *word = getenv("STAND_IN");
    return word && strcmp(word, name) == 0;
}

static mode_t kind_of(int file) {
    struct stat found;
    return fstat(file, &found) ? 0 : found.st_mode & S_IFMT;
}

/* Keeps a path; the answer is how often it was kept before. */
static int keep(const char *path) {
    int times = 0;
    pthread_mutex_lock(&lock);
    for (int at = 0; at < path_count; at++) times += strcmp(paths[at], path) == 0;
    if (path_count < PATHS) paths[path_count++] = strdup(path);
    pthread_mutex_unlock(&lock);
    return times;
}

/* Opens what was opened before: a pipe without waiting for its writer. */
static int again(opening *real, int folder, const char *path, int flags, int mode) {
    int file = real(folder, path, flags | O_NONBLOCK, mode);
    if (file >= 0) fcntl(file, F_SETFL, fcntl(file, F_GETFL) & ~O_NONBLOCK);
    return file;
}

static int read_by(opening *real, int folder, const char *path, int flags, int mode) {
    if (is("lengths") && keep(path)) return again(real, folder, path, flags, mode);
    int file = real(folder, path, flags, mode);
    if (file < 0) return file;
    if (is("empties") && path[0] != '/' && kind_of(file) == S_IFREG) keep(path);
    if (is("twice")) {
        /* Till a pipe's writer has ended, so that what it wrote goes with the first opening. */
        struct pollfd ended = {file, 0, 0};
        if (kind_of(file) == S_IFIFO) poll(&ended, 1, 10000);
        close(file);
        return again(real, folder, path, flags, mode);
    }
    return file;
}

static int opened(opening *real, int folder, const char *path, int flags, int mode) {
    if (flags & (O_DIRECTORY | O_PATH)) return real(folder, path, flags, mode);
    if ((flags & O_ACCMODE) == O_RDONLY) return read_by(real, folder, path, flags, mode);
    int file = real(folder, path, flags, mode);
    if (file < 0 || !is("late") || !(flags & O_CREAT)) return file;
    ssize_t taken = write(file, "s REFUTED\n", 10);
    int anew = taken < 0 ? -1 : real(folder, path, flags, mode);
    close(file);
    return anew;
}

#define MODE(flags) \
    va_list rest; \
    va_start(rest, flags); \
    int mode = flags & (O_CREAT | __O_TMPFILE) ? va_arg(rest, int) : 0; \
    va_end(rest)

int openat(int folder, const char *path, int flags, ...) {
    static opening *real;
    if (!real) real = (opening *)dlsym(RTLD_NEXT, "openat");
    MODE(flags);
    return opened(real, folder, path, flags, mode);
}

int open(const char *path, int flags, ...) {
    MODE(flags);
    return openat(AT_FDCWD, path, flags, mode);
}

int statx(int folder, const char *path, int flags, unsigned asked, struct statx *found) {
    static _Atomic unsigned long long looks;
    static int (*real)(int, const char *, int, unsigned, struct statx *);
    if (!real) real = (int (*)(int, const char *, int, unsigned, struct statx *))dlsym(RTLD_NEXT, "statx");
    int failed = real(folder, path, flags, asked, found);
    if (failed) return failed;
    if (is("lengths") && (found->stx_mode & S_IFMT) == S_IFIFO) {
        found->stx_mode = S_IFREG | (found->stx_mode & ~S_IFMT);
        found->stx_size = 1;
    }
    if (is("apart")) found->stx_ino = atomic_fetch_add(&looks, 1) + 1;
    return failed;
}

void _exit(int status) {
    void (*real)(int) = (void (*)(int))dlsym(RTLD_NEXT, "_exit");
    for (int at = 0; is("empties") && at < path_count; at++)
        if (truncate(paths[at], 0)) break;
    for (;;) real(status);
}
