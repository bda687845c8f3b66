// The directory in which work.c makes its files.
#define _GNU_SOURCE
#include <dirent.h>
#include <fcntl.h>
#include <stdio.h>
#include <sys/stat.h>
#include <unistd.h>

#include "work.h"

static int top;

static int open_directory(const char *path) {
    top = open(path, O_RDONLY | O_DIRECTORY);
    return top < 0 ? -1 : 0;
}

// Writes, brings it to the medium, and closes.
static int put(int file, const uint8_t *bytes, size_t len, uint32_t at) {
    if (file < 0)
        return -1;
    int failed = len > 0 && pwrite(file, bytes, len, at) != (ssize_t)len;
    failed |= fsync(file) != 0;
    failed |= close(file) != 0;
    return failed ? -1 : 0;
}

static int create(const char *name, const uint8_t *bytes, size_t len) {
    return put(openat(top, name, O_WRONLY | O_CREAT | O_EXCL, 0644), bytes, len, 0);
}

static int overwrite(const char *name, const uint8_t *bytes, size_t len, uint32_t at) {
    return put(openat(top, name, O_WRONLY), bytes, len, at);
}

static int read_bytes(const char *name, uint8_t *bytes, size_t len, uint32_t at) {
    int file = openat(top, name, O_RDONLY);
    if (file < 0)
        return -1;
    ssize_t got = pread(file, bytes, len, at);
    close(file);
    return (int)got;
}

static int list(int sizes) {
    DIR *directory = fdopendir(openat(top, ".", O_RDONLY | O_DIRECTORY));
    int names = 0;
    struct stat seen;
    for (struct dirent *entry; directory != NULL && (entry = readdir(directory)) != NULL;)
        names += entry->d_name[0] != '.' && (!sizes || fstatat(top, entry->d_name, &seen, 0) == 0);
    if (directory != NULL)
        closedir(directory);
    return names;
}

static int rename_file(const char *from, const char *to) { return renameat(top, from, top, to); }

static int remove_file(const char *name) { return unlinkat(top, name, 0); }

static void close_directory(void) { close(top); }

const struct place in_directory = {open_directory, create,      overwrite,   read_bytes,
                                   list,           rename_file, remove_file, close_directory};
