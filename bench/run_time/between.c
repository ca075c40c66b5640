// How long a program takes from its last read to its first text, in microseconds, behind the others in the file that BETWEEN names: to be
// preloaded. It hands on each read and write as it is. What a program reads behind its first text is not looked at.
#define _GNU_SOURCE
#include <fcntl.h>
#include <stdio.h>
#include <stdlib.h>
#include <sys/syscall.h>
#include <time.h>
#include <unistd.h>

static long last_read;
static int has_written;

static long now(void) {
    struct timespec t;
    clock_gettime(CLOCK_MONOTONIC, &t);
    return t.tv_sec * 1000000 + t.tv_nsec / 1000;
}

ssize_t read(int file, void *bytes, size_t count) {
    ssize_t got = syscall(SYS_read, file, bytes, count);
    if (!has_written) last_read = now();
    return got;
}

ssize_t write(int file, const void *bytes, size_t count) {
    const char *name = getenv("BETWEEN");
    if (file == STDOUT_FILENO && !has_written && name) {
        has_written = 1;
        char line[32];
        int length = snprintf(line, sizeof line, "%ld\n", now() - last_read);
        int to = open(name, O_WRONLY | O_CREAT | O_APPEND, 0644);
        syscall(SYS_write, to, line, (size_t)length);
        close(to);
    }
    return syscall(SYS_write, file, bytes, count);
}
