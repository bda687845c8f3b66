// What a volume of the library for C takes of memory: c_memory SECTORS SECTOR_SIZE KIND
// Fills a volume as far as all surely has room, with nothing (`empty`), writes as large as they can be (`large`), files
// of 192 bytes (`files`), writes of 32 bytes to files of 100,000 (`small`), or files without bytes (`names`). Prints how
// many changes it took, the bytes that the library holds then, and the most while the volume is opened again.
#include <stdbool.h>
#include <stdint.h>
#include <stdio.h>
#include <stdlib.h>
#include <string.h>

#include "pumpgrape.h"

enum { MEDIUM_MAX = 64 * 16384, BEFORE = 16, PATH_LEN = 10 };

struct tried {
    bool ok;
    void *block;
};

static uint8_t medium[MEDIUM_MAX], buffer[16384 / 4], data[16384];
static size_t held, most;
static pg_volume volume;
static uint32_t sector_size, changes;

static void need(bool so, const char *what) {
    if (!so) {
        fprintf(stderr, "c_memory: %s\n", what);
        exit(3);
    }
}

// Each block begins with its size, which stands before what the library is given.
static struct tried sized(uint8_t *block, size_t size) {
    need(block != NULL, "no memory");
    memcpy(block, &size, sizeof size);
    held += size;
    most = held > most ? held : most;
    return (struct tried){true, block + BEFORE};
}

static size_t size_of(const uint8_t *block) {
    size_t size;
    memcpy(&size, block - BEFORE, sizeof size);
    return size;
}

struct tried rattle_alloc(size_t size, size_t align) {
    (void)align;
    return sized(malloc(size + BEFORE), size);
}

struct tried rattle_realloc(void *block, size_t kept, size_t size, size_t align) {
    (void)kept, (void)align;
    held -= size_of(block);
    return sized(realloc((uint8_t *)block - BEFORE, size + BEFORE), size);
}

void rattle_dealloc(void *block) {
    held -= size_of(block);
    free((uint8_t *)block - BEFORE);
}

static void carry_out(void) {
    pg_call call;
    while (pg_next_call(&volume, &call, buffer, sizeof buffer) == PG_DONE) {
        for (uint32_t i = 0; i < call.len; i++)
            medium[call.at + i] = call.erase ? 0xff : medium[call.at + i] & buffer[i];
        need(pg_carried_out(&volume) == PG_DONE, "a call isn't taken note of");
    }
}

static bool changed(uint32_t code) {
    carry_out();
    changes += code == PG_DONE;
    return code == PG_DONE;
}

// Whether a record of so many bytes of data, and one without, surely have room.
static bool has_room(uint32_t bytes) {
    pg_usage usage;
    need(pg_usage_of(&volume, &usage) == PG_DONE, "no usage");
    return usage.weight + 64 + 64 + bytes + 3 < usage.sure;
}

static const char *path_of(uint32_t number) {
    static char path[PATH_LEN + 1];
    snprintf(path, sizeof path, "/d%02u/f%04u", (unsigned)(number / 100 % 100), (unsigned)(number % 10000));
    if (number % 100 == 0)
        need(changed(pg_mkdir(&volume, path, 4)), "no directory");
    return path;
}

// Files of so many bytes, in writes of so many, until there is no room.
static void fill(uint32_t file_len, uint32_t write_len) {
    for (uint32_t number = 0; number < 10000 && has_room(64 + write_len); number++) {
        const char *path = path_of(number);
        need(changed(pg_create(&volume, path, PATH_LEN)), "no file");
        for (uint32_t at = 0; write_len > 0 && at < file_len && has_room(write_len); at += write_len)
            need(changed(pg_write(&volume, path, PATH_LEN, at, data, write_len)), "no bytes");
    }
}

static void open_volume(size_t len) {
    pg_refusal refusal;
    need(pg_open(medium, len, sector_size, &volume, &refusal) == PG_DONE, "it isn't opened");
    carry_out();
}

int main(int argc, char **argv) {
    need(argc == 4, "c_memory SECTORS SECTOR_SIZE KIND");
    size_t len = (size_t)atoi(argv[1]) * (size_t)atoi(argv[2]);
    const char *kind = argv[3];
    pg_longest longest;
    sector_size = (uint32_t)atoi(argv[2]);
    need(len <= MEDIUM_MAX, "too many bytes");
    memset(medium, 0xff, len);
    open_volume(len);
    need(pg_longest_of(&volume, &longest) == PG_DONE, "no longest");
    if (strcmp(kind, "large") == 0)
        fill(longest.file - longest.file % longest.write, longest.write);
    else if (strcmp(kind, "files") == 0)
        fill(192, 192);
    else if (strcmp(kind, "small") == 0)
        fill(100000, 32);
    else if (strcmp(kind, "names") == 0)
        fill(0, 0);
    else
        need(strcmp(kind, "empty") == 0, "no kind");
    size_t full = held;
    pg_close(volume);
    need(held == 0, "memory is left");
    most = 0;
    open_volume(len);
    printf("%u %zu %zu\n", (unsigned)changes, full, most);
    pg_close(volume);
    return 0;
}
