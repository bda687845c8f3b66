// The directory that torture.c changes, by system calls.
#include <dirent.h>
#include <errno.h>
#include <fcntl.h>
#include <stdio.h>
#include <string.h>
#include <unistd.h>

#include "torture.h"

static int top;

static int open_directory(const char *path, uint32_t sector_size) {
    (void)sector_size;
    top = open(path, O_RDONLY | O_DIRECTORY);
    return top < 0;
}

static int look(const char *path, uint8_t *bytes) {
    int file = openat(top, path + 1, O_RDONLY);
    if (file < 0)
        return errno == ENOENT ? -1 : -2;
    ssize_t count = read(file, bytes, LONGEST + 1);
    close(file);
    return count < 0 ? -2 : (int)count;
}

static int names(void) {
    DIR *directory = fdopendir(openat(top, ".", O_RDONLY | O_DIRECTORY));
    int count = 0;
    for (struct dirent *entry; directory != NULL && (entry = readdir(directory)) != NULL;)
        count += strcmp(entry->d_name, ".") != 0 && strcmp(entry->d_name, "..") != 0;
    if (directory != NULL)
        closedir(directory);
    return count;
}

static int change_open(const struct change *change, int file) {
    if (file < 0)
        return 1;
    int failed = 0;
    if (change->verb == TRUNCATE)
        failed = ftruncate(file, change->at);
    if (change->verb == WRITE)
        failed = pwrite(file, change->bytes, change->len, change->at) != (ssize_t)change->len;
    failed |= fsync(file);
    close(file);
    return failed;
}

static int change(const struct change *change, const char *from, const char *to) {
    int failed, flags = O_WRONLY | (change->verb == CREATE ? O_CREAT | O_EXCL : 0);
    if (change->verb == REMOVE)
        failed = unlinkat(top, from + 1, 0);
    else if (change->verb == RENAME)
        failed = renameat(top, from + 1, top, to + 1);
    else
        failed = change_open(change, openat(top, from + 1, flags, 0644));
    if (failed != 0)
        printf("%s: %s\n", from, strerror(errno));
    return failed;
}

const struct target on_directory = {open_directory, look, names, change};
