// Put before the C library by LD_PRELOAD: of the calls that write to a regular file, or bring one to the medium, number
// FAIL_AT (from 1; 0 for none) fails with EIO, and with FAIL_ON each later one too. How many there were is written to the
// file FAIL_COUNT at the end.
#define _GNU_SOURCE
#include <errno.h>
#include <fcntl.h>
#include <stdatomic.h>
#include <stdio.h>
#include <stdlib.h>
#include <sys/stat.h>
#include <sys/syscall.h>
#include <unistd.h>

static atomic_long calls;

static long number_of(const char *name) {
    const char *text = getenv(name);
    return text ? atol(text) : 0;
}

static int fails(int file) {
    struct stat found;
    if (fstat(file, &found) != 0 || !S_ISREG(found.st_mode))
        return 0;
    long call = atomic_fetch_add(&calls, 1) + 1, at = number_of("FAIL_AT");
    if (at == 0 || call < at || (call > at && !getenv("FAIL_ON")))
        return 0;
    errno = EIO;
    return 1;
}

ssize_t write(int file, const void *bytes, size_t length) {
    return fails(file) ? -1 : syscall(SYS_write, file, bytes, length);
}

ssize_t pwrite(int file, const void *bytes, size_t length, off_t offset) {
    return fails(file) ? -1 : syscall(SYS_pwrite64, file, bytes, length, offset);
}

int fsync(int file) { return fails(file) ? -1 : (int)syscall(SYS_fsync, file); }

int fdatasync(int file) { return fails(file) ? -1 : (int)syscall(SYS_fdatasync, file); }

__attribute__((destructor)) static void end(void) {
    const char *name = getenv("FAIL_COUNT");
    char text[24];
    int file = name ? open(name, O_CREAT | O_WRONLY | O_TRUNC, 0600) : -1;
    int length = snprintf(text, sizeof text, "%ld", atomic_load(&calls));
    if (file >= 0 && syscall(SYS_write, file, text, length) == length)
        close(file);
}
