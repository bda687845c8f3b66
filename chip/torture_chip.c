// The chip that torture.c changes, by the library for C.
#include <stdio.h>

#include "on_mtd.h"
#include "torture.h"

static on_mtd chip;
static pgfs fs;

static int told(const char *what, uint32_t code) {
    char text[80] = "";
    text[pg_text(code, text, sizeof text - 1)] = 0;
    if (code != PG_DONE)
        printf("%s: %s %s\n", what, text, code == PG_DEVICE ? chip.why : "");
    return code != PG_DONE;
}

static int open_chip(const char *path, uint32_t sector_size) {
    if (on_mtd_open(&chip, path, false, sector_size, 0) != 0)
        return printf("VERIFY refused: %s\n", chip.why), 1;
    return told("VERIFY refused", pgfs_mount(&fs, &chip.driver));
}

static int look(const char *path, uint8_t *bytes) {
    size_t count;
    uint32_t code = pgfs_read(&fs, path, 0, bytes, LONGEST + 1, &count);
    return code == PG_DONE ? (int)count : code == PG_NOT_FOUND ? -1 : -2;
}

static bool count_one(void *context, const char *name, const pg_sight *sight) {
    (void)name, (void)sight;
    ++*(int *)context;
    return true;
}

static int names(void) {
    int count = 0;
    return pgfs_list(&fs, "/", count_one, &count) == PG_DONE ? count : -1;
}

static uint32_t ask(const struct change *change, const char *from, const char *to) {
    size_t written;
    switch (change->verb) {
    case CREATE:
        return pgfs_create(&fs, from);
    case REMOVE:
        return pgfs_remove(&fs, from);
    case TRUNCATE:
        return pgfs_truncate(&fs, from, change->at);
    case RENAME:
        return pgfs_rename(&fs, from, to);
    default:
        return pgfs_write(&fs, from, change->at, change->bytes, change->len, &written);
    }
}

// The next change comes after a turn of cleaning where that is worth it.
static int change(const struct change *change, const char *from, const char *to) {
    uint32_t code = ask(change, from, to);
    uint32_t cleaned = code == PG_DONE ? pgfs_clean(&fs) : code;
    return told(from, code == PG_DONE && cleaned != PG_NOTHING ? cleaned : code);
}

const struct target on_chip = {open_chip, look, names, change};
