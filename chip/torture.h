// What torture.c changes: a volume by its library, or a directory.
#ifndef PUMPGRAPE_TORTURE_H
#define PUMPGRAPE_TORTURE_H

#include <stdbool.h>
#include <stdint.h>

enum { SLOTS = 24, LONGEST = 2048, PIECE = 900, NAME = 8 };

// A file that may be there, under one of two names.
struct slot {
    bool there, side;
    uint32_t size;
    uint8_t bytes[LONGEST];
};

enum verb { CREATE, REMOVE, TRUNCATE, RENAME, WRITE };

struct change {
    enum verb verb;
    int slot;
    uint32_t at, len; // of a write; a truncated file has `at` bytes
    uint8_t bytes[PIECE];
};

struct target {
    int (*open)(const char *path, uint32_t sector_size);
    // How many bytes stand at a path, of LONGEST + 1 at most; -1 where nothing does, and -2 where that can't be told.
    int (*look)(const char *path, uint8_t *bytes);
    // How many names are there.
    int (*names)(void);
    // Makes one change; `to` is the new name of a rename. 0 once it is done, else it has told why not.
    int (*change)(const struct change *change, const char *from, const char *to);
};

extern const struct target on_chip, on_directory;
#endif
