// Tries bindings/c/pumpgrape_fs.c on a driver in memory, of which each call fails in turn: `fs_try` says at its end how
// many calls there were, and `fs_try N` has call N fail.
#include <stdio.h>
#include <stdlib.h>
#include <string.h>

#include "pumpgrape_fs.h"

enum { SECTORS = 16, SECTOR_SIZE = 1024, BLOCK = 256, SIZE = SECTORS * SECTOR_SIZE, LONG = 1500, TURNS = 12 };

static uint8_t medium[SIZE], buffer[SIZE];
static unsigned long calls, fails_at;
static bool kept_back; // what was programmed or erased wasn't synced yet
static bool failed;

static void need(bool holds, const char *what) {
    if (!holds) {
        fprintf(stderr, "fs_try: call %lu fails: %s\n", fails_at, what);
        exit(3);
    }
}

static int fails(void *context) {
    need(context == medium, "the driver's context");
    need(!failed, "a call after one that failed");
    calls++;
    failed = calls == fails_at;
    return failed;
}

static int ram_read(void *context, uint32_t at, uint8_t *to, uint32_t len) {
    memcpy(to, medium + at, len);
    return fails(context);
}

static int ram_program(void *context, uint32_t at, const uint8_t *bytes, uint32_t len) {
    need(!kept_back, "a call before the sync of the last one");
    int fail = fails(context);
    need(at / SECTOR_SIZE == (at + len - 1) / SECTOR_SIZE, "a program over two sectors");
    for (uint32_t byte = 0; byte < (fail ? len / 2 : len); byte++)
        medium[at + byte] &= bytes[byte];
    kept_back = !fail;
    return fail;
}

static bool is_erased(uint32_t at, uint32_t end) {
    while (at < end && medium[at] == 0xff)
        at++;
    return at == end;
}

// Once it was formatted a block is erased only after those behind it in its sector.
static int ram_erase(void *context, uint32_t at, uint32_t len) {
    bool formatted = calls >= SIZE / BLOCK;
    need(!kept_back || !formatted, "a call before the sync of the last one");
    int fail = fails(context);
    need(at % BLOCK == 0 && len == BLOCK, "an erase of other bytes than a block's");
    uint32_t sector_end = (at / SECTOR_SIZE + 1) * SECTOR_SIZE;
    need(!formatted || is_erased(at + BLOCK, sector_end), "an erase of the blocks before the one at the end");
    memset(medium + at, fail ? 0x5a : 0xff, len);
    kept_back = !fail;
    return fail;
}

static int ram_sync(void *context) {
    need(kept_back, "a sync of nothing");
    kept_back = false;
    return fails(context);
}

static pgfs_driver driver = {medium, ram_read, ram_program, ram_erase, ram_sync, SECTOR_SIZE, SECTORS,
                             BLOCK, buffer, SIZE};

static bool count_one(void *context, const char *name, const pg_sight *sight) {
    int *names = context;
    need(strlen(name) == 1 && !sight->directory, "a name");
    return ++*names < 2;
}

// What a session does, up to a call that fails; the answer of that.
static uint32_t use(pgfs *fs) {
    uint8_t bytes[LONG], got[LONG + 1];
    size_t count = 0;
    uint32_t code = pgfs_create(fs, "/a");
    code = code == PG_NAME_TAKEN ? PG_DONE : code;
    for (int turn = 0; turn < TURNS && code == PG_DONE; turn++) {
        memset(bytes, 'a' + turn, sizeof bytes);
        code = pgfs_write(fs, "/a", 0, bytes, sizeof bytes, &count);
        need(code != PG_DONE || (count == LONG && pgfs_read(fs, "/a", 0, got, sizeof got, &count) == PG_DONE &&
                                 count == LONG && memcmp(bytes, got, LONG) == 0), "what was written");
        if (code == PG_DONE)
            code = pgfs_clean(fs) == PG_DEVICE ? PG_DEVICE : pgfs_create(fs, "/b");
        if (code == PG_DONE)
            code = pgfs_rename(fs, "/b", "/c");
        if (code == PG_DONE)
            code = pgfs_truncate(fs, "/c", 10);
        if (code == PG_DONE)
            code = pgfs_remove(fs, "/c");
    }
    return code;
}

static void look(pgfs *fs) {
    pg_sight sight;
    pg_usage usage;
    size_t count = 1;
    int names = 0;
    uint8_t byte;
    need(pgfs_stat(fs, "/none", &sight) == PG_NOT_FOUND && pgfs_stat(fs, "a", &sight) == PG_PATH_NO_SLASH, "no path");
    need(pgfs_mkdir(fs, "/d") == PG_DONE && pgfs_mkdir(fs, "/d") == PG_NAME_TAKEN, "a directory");
    need(pgfs_write(fs, "/d", 0, &byte, 1, &count) == PG_IS_DIRECTORY && count == 0, "a write that is refused");
    need(pgfs_create(fs, "/d/x") == PG_DONE && pgfs_create(fs, "/d/y") == PG_DONE && pgfs_create(fs, "/d/z") == PG_DONE,
         "files");
    need(pgfs_write(fs, "/d/x", 5, &byte, 0, &count) == PG_DONE && count == 0, "a write of nothing");
    need(pgfs_list(fs, "/d", count_one, &names) == PG_DONE && names == 2, "a list that is left early");
    need(pgfs_list(fs, "/none", count_one, &names) == PG_NOT_FOUND, "a list of nothing");
    need(pgfs_usage(fs, &usage) == PG_DONE && usage.sectors == SECTORS, "the usage");
}

// A volume after whose failing call the next mount is right, and all can be done again.
static void play(void) {
    pgfs fs;
    uint32_t code = pgfs_format(&driver);
    if (code == PG_DONE)
        code = pgfs_mount(&fs, &driver);
    if (code == PG_DONE) {
        code = use(&fs);
        if (code == PG_DONE && fails_at == 0)
            look(&fs);
        need(!failed || (code == PG_DEVICE && pgfs_create(&fs, "/e") == PG_FAILED), "the answer after a failure");
        uint32_t last = pgfs_unmount(&fs);
        need(failed ? last == PG_DEVICE || last == PG_FAILED : last == PG_DONE, "the unmount");
    }
    need(failed ? fails_at > 0 && code != PG_BAD_RECORD : fails_at == 0 || calls < fails_at, "an answer");
}

int main(int count, char **words) {
    fails_at = count > 1 ? strtoul(words[1], NULL, 10) : 0;
    play();
    unsigned long all = calls;
    bool formatted = all > SIZE / BLOCK + 1;
    fails_at = 0;
    failed = kept_back = false;
    pgfs fs;
    pg_sight sight;
    driver.buffer_len = SIZE - 1;
    need(pgfs_mount(&fs, &driver) == PG_BUFFER_SHORT, "a short buffer");
    driver.buffer_len = SIZE;
    driver.block = 0;
    need(pgfs_mount(&fs, &driver) == PG_GEOMETRY && pgfs_format(&driver) == PG_GEOMETRY, "blocks of no bytes");
    driver.block = BLOCK;
    if (formatted) {
        need(pgfs_open(&fs, &driver) == PG_DONE, "an opening");
        pgfs_close(&fs);
        need(pgfs_mount(&fs, &driver) == PG_DONE, "the next mount");
        pgfs_remove(&fs, "/b"); // either may be left
        pgfs_remove(&fs, "/c");
        need(pgfs_stat(&fs, "/", &sight) == PG_DONE && use(&fs) == PG_DONE, "all of it again");
        need(pgfs_unmount(&fs) == PG_DONE, "the last unmount");
    }
    printf("right %lu\n", all);
    return 0;
}
