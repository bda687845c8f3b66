// A volume in a file, as a chip would be driven: each call is carried out on the file, and a failure of the file is
// one of the device. It is for files alone: on_mtd.c drives a chip's device file.
//     on_file IMAGE SECTOR_SIZE mkdir|create|remove PATH | write PATH TEXT | read PATH | ls PATH
#include <fcntl.h>
#include <stdio.h>
#include <stdlib.h>
#include <string.h>
#include <sys/stat.h>
#include <unistd.h>

#include "pumpgrape_fs.h"

static uint8_t medium[64 * 16384];

static int told(uint32_t code) {
    char text[64];
    size_t length = pg_text(code, text, sizeof text);
    if (code != PG_DONE)
        fprintf(stderr, "on_file: %.*s\n", (int)length, text);
    return code != PG_DONE;
}

// The driver: its context is the file.
static int file_read(void *context, uint32_t at, uint8_t *buffer, uint32_t len) {
    return pread(*(int *)context, buffer, len, at) != (ssize_t)len;
}

// A program only clears bits, so the bytes that stand there are read first.
static int file_program(void *context, uint32_t at, const uint8_t *bytes, uint32_t len) {
    uint8_t old[16384];
    if (len > sizeof old || file_read(context, at, old, len) != 0)
        return 1;
    for (uint32_t byte = 0; byte < len; byte++)
        old[byte] &= bytes[byte];
    return pwrite(*(int *)context, old, len, at) != (ssize_t)len;
}

static int file_erase(void *context, uint32_t at, uint32_t len) {
    uint8_t erased[16384];
    memset(erased, 0xff, sizeof erased);
    return len > sizeof erased || pwrite(*(int *)context, erased, len, at) != (ssize_t)len;
}

static int file_sync(void *context) { return fsync(*(int *)context); }

static bool print_entry(void *context, const char *name, const pg_sight *sight) {
    (void)context;
    printf("%c %u %s\n", sight->directory ? 'd' : 'f', sight->size, name);
    return true;
}

static uint32_t show(pgfs *fs, const char *path) {
    uint8_t bytes[256];
    size_t count = 0;
    uint32_t at = 0, code;
    while ((code = pgfs_read(fs, path, at, bytes, sizeof bytes, &count)) == PG_DONE && count > 0) {
        fwrite(bytes, 1, count, stdout);
        at += (uint32_t)count;
    }
    return code;
}

static uint32_t ask(pgfs *fs, int count, char **words) {
    const char *verb = words[0], *path = words[1];
    size_t written;
    if (strcmp(verb, "mkdir") == 0)
        return pgfs_mkdir(fs, path);
    if (strcmp(verb, "create") == 0)
        return pgfs_create(fs, path);
    if (strcmp(verb, "remove") == 0)
        return pgfs_remove(fs, path);
    if (strcmp(verb, "write") == 0 && count > 2)
        return pgfs_write(fs, path, 0, words[2], strlen(words[2]), &written);
    return strcmp(verb, "ls") == 0 ? pgfs_list(fs, path, print_entry, NULL) : show(fs, path);
}

// The medium is the file's bytes, whole sectors.
static uint32_t measure(int file, pgfs_driver *driver, uint32_t sector_size) {
    struct stat seen;
    if (file < 0 || fstat(file, &seen) != 0)
        return PG_DEVICE;
    if (seen.st_size > (off_t)sizeof medium || sector_size == 0 || seen.st_size % sector_size != 0)
        return PG_GEOMETRY;
    driver->sector_size = driver->block = sector_size;
    driver->sectors = (uint32_t)seen.st_size / sector_size;
    return PG_DONE;
}

int main(int argc, char **argv) {
    if (argc < 5) {
        fprintf(stderr, "on_file IMAGE SECTOR_SIZE mkdir|create|remove|write|read|ls PATH [TEXT]\n");
        return 2;
    }
    int file = open(argv[1], O_RDWR);
    pgfs_driver driver = {&file, file_read, file_program, file_erase, file_sync, 0, 0, 0, medium, sizeof medium};
    pgfs fs;
    uint32_t code = measure(file, &driver, (uint32_t)strtoul(argv[2], NULL, 10));
    if (told(code == PG_DONE ? pgfs_mount(&fs, &driver) : code))
        return 1;
    int wrong = told(ask(&fs, argc - 3, argv + 3));
    pgfs_close(&fs); // without an unmount: the next mount finds all the same
    close(file);
    return wrong;
}
