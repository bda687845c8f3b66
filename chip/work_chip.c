// The chip on which work.c makes its files, by the library for C.
#include <malloc.h>
#include <stdio.h>

#include "on_mtd.h"
#include "work.h"

static on_mtd chip;
static pgfs fs;
static struct mallinfo2 before;

// What the library holds: the buffer for the medium is the driver's.
static size_t held(void) {
    struct mallinfo2 now = mallinfo2();
    return now.uordblks + now.hblkhd - before.uordblks - before.hblkhd;
}

static int open_chip(const char *path) {
    if (on_mtd_open(&chip, path, false, 0, 0) != 0)
        return puts(chip.why), -1;
    before = mallinfo2();
    return pgfs_mount(&fs, &chip.driver) == PG_DONE ? 0 : -1;
}

static const char *path_of(const char *name) {
    static char paths[2][40];
    static int turn;
    turn = !turn;
    snprintf(paths[turn], sizeof paths[turn], "/%s", name);
    return paths[turn];
}

static int answer(uint32_t code) { return code == PG_DONE ? 0 : -1; }

static int overwrite(const char *name, const uint8_t *bytes, size_t len, uint32_t at) {
    size_t written;
    return answer(pgfs_write(&fs, path_of(name), at, bytes, len, &written));
}

static int create(const char *name, const uint8_t *bytes, size_t len) {
    int made = answer(pgfs_create(&fs, path_of(name)));
    return made != 0 || len == 0 ? made : overwrite(name, bytes, len, 0);
}

static int read_bytes(const char *name, uint8_t *bytes, size_t len, uint32_t at) {
    size_t got;
    return pgfs_read(&fs, path_of(name), at, bytes, len, &got) == PG_DONE ? (int)got : -1;
}

static bool count_one(void *context, const char *name, const pg_sight *sight) {
    (void)name, (void)sight;
    ++*(int *)context;
    return true;
}

static int list(int sizes) {
    (void)sizes;
    int names = 0;
    return pgfs_list(&fs, "/", count_one, &names) == PG_DONE ? names : -1;
}

static int rename_file(const char *from, const char *to) {
    return answer(pgfs_rename(&fs, path_of(from), path_of(to)));
}

static int remove_file(const char *name) { return answer(pgfs_remove(&fs, path_of(name))); }

static void close_chip(void) {
    printf("ROW memory 1 %zu\n", held());
    pgfs_unmount(&fs);
    on_mtd_close(&chip);
}

const struct place on_chip = {open_chip, create, overwrite, read_bytes, list, rename_file, remove_file, close_chip};
