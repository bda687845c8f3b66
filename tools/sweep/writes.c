// Put before the C library by LD_PRELOAD: notes in the file WRITES, in their order, what a program writes to regular files
// and to standard output, which files and directories it has the operating system bring to the medium, and what it renames.
#define _GNU_SOURCE
#include <fcntl.h>
#include <pthread.h>
#include <stdint.h>
#include <stdio.h>
#include <stdlib.h>
#include <string.h>
#include <sys/stat.h>
#include <sys/syscall.h>
#include <sys/uio.h>
#include <unistd.h>

// One note: W bytes were written, S a file was synced, A bytes went to standard output, R a file was renamed, L one was
// linked; after it stand the bytes, or the new name.
struct note {
    uint64_t kind, inode, offset, length;
};

static pthread_mutex_t one_at_a_time = PTHREAD_MUTEX_INITIALIZER;

static void note(struct note head, const void *bytes) {
    static int file = -1;
    const char *name = getenv("WRITES");
    if (!name)
        return;
    if (file < 0)
        file = open(name, O_CREAT | O_WRONLY | O_APPEND | O_CLOEXEC, 0600);
    struct iovec parts[] = {{&head, sizeof head}, {(void *)bytes, bytes ? head.length : 0}};
    if (file < 0 || syscall(SYS_writev, file, parts, 2) != (ssize_t)(parts[0].iov_len + parts[1].iov_len))
        _exit(99);
}

static int is_file(int file, struct stat *found) {
    return fstat(file, found) == 0 && S_ISREG(found->st_mode);
}

// Notes `count` bytes that were written at an offset, or from where the file stands now, less as many, on.
static void written(int file, const void *bytes, ssize_t count, off_t offset) {
    struct stat found;
    if (count <= 0)
        return;
    if (file == STDOUT_FILENO)
        note((struct note){'A', 0, 0, count}, bytes);
    else if (is_file(file, &found))
        note((struct note){'W', found.st_ino, offset >= 0 ? offset : lseek(file, 0, SEEK_CUR) - count, count}, bytes);
}

ssize_t write(int file, const void *bytes, size_t length) {
    pthread_mutex_lock(&one_at_a_time);
    ssize_t count = syscall(SYS_write, file, bytes, length);
    written(file, bytes, count, -1);
    pthread_mutex_unlock(&one_at_a_time);
    return count;
}

ssize_t pwrite(int file, const void *bytes, size_t length, off_t offset) {
    pthread_mutex_lock(&one_at_a_time);
    ssize_t count = syscall(SYS_pwrite64, file, bytes, length, offset);
    written(file, bytes, count, offset);
    pthread_mutex_unlock(&one_at_a_time);
    return count;
}

static int sync_by(long call, int file) {
    struct stat found;
    pthread_mutex_lock(&one_at_a_time);
    int failed = (int)syscall(call, file);
    if (failed == 0 && fstat(file, &found) == 0)
        note((struct note){'S', found.st_ino, 0, 0}, NULL);
    pthread_mutex_unlock(&one_at_a_time);
    return failed;
}

int fsync(int file) { return sync_by(SYS_fsync, file); }

int fdatasync(int file) { return sync_by(SYS_fdatasync, file); }

static int named(char kind, int failed, const char *name) {
    if (failed == 0)
        note((struct note){kind, 0, 0, strlen(name)}, name);
    return failed;
}

int rename(const char *old, const char *new) {
    return named('R', (int)syscall(SYS_renameat, AT_FDCWD, old, AT_FDCWD, new), new);
}

int link(const char *old, const char *new) {
    return named('L', (int)syscall(SYS_linkat, AT_FDCWD, old, AT_FDCWD, new, 0), new);
}
