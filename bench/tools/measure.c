/* measure [-i] OUT PROGRAM WORDS... : runs PROGRAM with its standard output in the file OUT and without standard error; with -i it gets this
   program's standard input, without it none.
   Prints wall time in nanoseconds, processor time in microseconds, peak memory in KB, and the status. */
#include <fcntl.h>
#include <stdio.h>
#include <string.h>
#include <sys/resource.h>
#include <sys/wait.h>
#include <time.h>
#include <unistd.h>

static long long microseconds(struct timeval t) {
    return t.tv_sec * 1000000LL + t.tv_usec;
}

static void run(int has_input, const char *out, char **words) {
    int output = open(out, O_WRONLY | O_CREAT | O_TRUNC, 0600), nowhere = open("/dev/null", O_RDWR);
    if (!has_input)
        dup2(nowhere, 0);
    dup2(output, 1);
    dup2(nowhere, 2);
    execv(words[0], words);
    _exit(127);
}

int main(int count, char **words) {
    struct timespec begin, end;
    struct rusage used;
    int status, has_input = count > 1 && strcmp(words[1], "-i") == 0;
    if (count < 3 + has_input)
        return 2;
    words += has_input;
    clock_gettime(CLOCK_MONOTONIC, &begin);
    pid_t child = fork();
    if (child == 0)
        run(has_input, words[1], words + 2);
    if (child < 0 || wait4(child, &status, 0, &used) < 0)
        return 1;
    clock_gettime(CLOCK_MONOTONIC, &end);
    long long wall = (end.tv_sec - begin.tv_sec) * 1000000000LL + end.tv_nsec - begin.tv_nsec;
    long long processor = microseconds(used.ru_utime) + microseconds(used.ru_stime);
    printf("%lld %lld %ld %d\n", wall, processor, used.ru_maxrss,
        WIFEXITED(status) ? WEXITSTATUS(status) : 256 + WTERMSIG(status));
    return 0;
}
