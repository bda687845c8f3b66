#include <errno.h>
#include <stdio.h>
#include <stdlib.h>

#include "on_mtd.h"
#include "volume.h"

static on_mtd chip;
static pgfs fs;
static int looks; // the chip isn't changed

// What each code is for a system call. Those of the paths are EINVAL, and all others EIO.
static int error_of(uint32_t code) {
    switch (code) {
    case PG_DONE: return 0;
    case PG_ROOT_FIXED: return -EBUSY;
    case PG_NO_PARENT: case PG_NOT_FOUND: return -ENOENT;
    case PG_NAME_TAKEN: return -EEXIST;
    case PG_IS_DIRECTORY: return -EISDIR;
    case PG_FILE_LONG: return -EFBIG;
    case PG_NOT_EMPTY: return -ENOTEMPTY;
    case PG_INODES_SPENT: case PG_NO_SPACE: return -ENOSPC;
    case PG_VERSIONS_SPENT: return -EROFS;
    case PG_MEMORY: return -ENOMEM;
    default: return code >= PG_PATH_NO_SLASH && code <= PG_PATH_DEEP ? -EINVAL : -EIO;
    }
}

// The same of a call that the chip may fail: it is told once, and PG_FAILED answers from then on.
static int settled(uint32_t code) {
    char why[256];
    if (code == PG_DEVICE && volume_lost != NULL) {
        snprintf(why, sizeof why, "%s; every call fails from now on", chip.why[0] ? chip.why : "out of memory");
        volume_lost(why);
    }
    return error_of(code);
}

static int look(const char *path, struct seen *seen) {
    pg_sight sight = {0};
    uint32_t code = pgfs_stat(&fs, path, &sight);
    *seen = (struct seen){sight.directory, sight.size};
    return error_of(code);
}

struct listing {
    each_name each;
    void *context;
    int error;
};

static bool hand_on(void *context, const char *name, const pg_sight *sight) {
    struct listing *listing = context;
    struct seen seen = {sight->directory, sight->size};
    listing->error = listing->each(listing->context, name, &seen);
    return listing->error == 0;
}

static int list(const char *path, each_name each, void *context) {
    struct listing listing = {each, context, 0};
    int error = error_of(pgfs_list(&fs, path, hand_on, &listing));
    return error != 0 ? error : listing.error;
}

static int read_bytes(const char *path, char *bytes, size_t size, uint32_t offset) {
    size_t count = 0;
    int error = error_of(pgfs_read(&fs, path, offset, bytes, size, &count));
    return error != 0 ? error : (int)count;
}

static int write_bytes(const char *path, const char *bytes, size_t size, uint32_t offset) {
    size_t written;
    return settled(pgfs_write(&fs, path, offset, bytes, size, &written));
}

static int create(const char *path) { return settled(pgfs_create(&fs, path)); }

static int make_directory(const char *path) { return settled(pgfs_mkdir(&fs, path)); }

static int remove_path(const char *path) { return settled(pgfs_remove(&fs, path)); }

static int truncate_to(const char *path, uint32_t size) { return settled(pgfs_truncate(&fs, path, size)); }

// A directory stays in its directory.
static int rename_free(const char *from, const char *to) {
    int error = settled(pgfs_rename(&fs, from, to));
    return error == -EISDIR ? -EXDEV : error;
}

static int room_left(struct room *room) {
    pg_usage usage = {0};
    uint32_t code = pgfs_usage(&fs, &usage);
    *room = (struct room){(uint64_t)usage.sectors * usage.sector_size, usage.weight, usage.sure};
    return error_of(code);
}

static int end(void) {
    uint32_t code = PG_DONE;
    if (looks)
        pgfs_close(&fs);
    else
        code = pgfs_unmount(&fs);
    on_mtd_close(&chip);
    return code == PG_DONE ? 0 : 1;
}

static int refused(const char *image, uint32_t code) {
    char text[80] = "";
    text[pg_text(code, text, sizeof text - 1)] = 0;
    fprintf(stderr, "pumpgrape-mount: %s: %s\n", image, code == PG_DEVICE && chip.why[0] ? chip.why : text);
    on_mtd_close(&chip);
    return 1;
}

static uint32_t number(const char *word) { return word == NULL ? 0 : (uint32_t)strtoul(word, NULL, 10); }

int start_by_chip(const struct volume **volume, const char *image, int read_only, const char *sector_size,
                  const char *sectors) {
    static const struct volume BY_CHIP = {look,        list,        read_bytes,  write_bytes, create, make_directory,
                                          remove_path, truncate_to, rename_free, room_left,   end};
    if (on_mtd_open(&chip, image, read_only, number(sector_size), number(sectors)) != 0)
        return refused(image, PG_DEVICE);
    looks = read_only;
    uint32_t code = looks ? pgfs_open(&fs, &chip.driver) : pgfs_mount(&fs, &chip.driver);
    pg_longest longest = {0};
    if (code == PG_DONE)
        code = pg_longest_of(&fs.volume, &longest);
    if (code != PG_DONE)
        return refused(image, code);
    limits = (struct limits){longest.write, longest.name, longest.depth};
    *volume = &BY_CHIP;
    return 0;
}
