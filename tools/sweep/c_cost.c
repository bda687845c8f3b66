// Makes one call of the library for C on a volume again and again, as the program jffs_bench makes it in Rattle:
//     c_cost CALL COUNT
#include <stdio.h>
#include <stdlib.h>
#include <string.h>

#include "pumpgrape.h"

enum { SECTORS = 64, SECTOR_SIZE = 4096, FILES = 400, WRITE_LEN = 192, PATH_LEN = 7 };

static uint8_t medium[SECTORS * SECTOR_SIZE], data[WRITE_LEN], buffer[SECTOR_SIZE];
static pg_volume volume;
static char paths[FILES][PATH_LEN + 1], others[FILES][PATH_LEN + 1];

static void need(uint32_t code, uint32_t wanted) {
    if (code != wanted) {
        fprintf(stderr, "c_cost: answered %u\n", (unsigned)code);
        exit(3);
    }
}

// A change, and the calls that it leaves.
static void changed(uint32_t code, uint32_t wanted) {
    need(code, wanted);
    pg_call call;
    while (pg_next_call(&volume, &call, buffer, sizeof buffer) == PG_DONE)
        need(pg_carried_out(&volume), PG_DONE);
}

static void create(int file) { changed(pg_create(&volume, others[file], PATH_LEN), PG_DONE); }

static void write(int file) { changed(pg_write(&volume, paths[file], PATH_LEN, 0, data, WRITE_LEN), PG_DONE); }

static void truncate(int file) { changed(pg_truncate(&volume, paths[file], PATH_LEN, 100), PG_DONE); }

static void rename_one(int file) {
    changed(pg_rename(&volume, paths[file], PATH_LEN, others[file], PATH_LEN), PG_DONE);
}

static void remove_one(int file) { changed(pg_remove(&volume, paths[file], PATH_LEN), PG_DONE); }

static void refused(int file) { changed(pg_create(&volume, paths[file], PATH_LEN), PG_NAME_TAKEN); }

static void clean(int file) {
    (void)file;
    changed(pg_clean(&volume), PG_DONE);
}

static void look(int file) {
    pg_sight sight;
    need(pg_look(&volume, paths[file], PATH_LEN, &sight), PG_DONE);
}

static void read_part(int file) {
    size_t length;
    need(pg_read(&volume, paths[file], PATH_LEN, 3, buffer, 64, &length), PG_DONE);
}

static void entry(int file) {
    pg_sight sight;
    char name[20];
    size_t length;
    need(pg_entry(&volume, "/d", 2, (uint32_t)file, name, sizeof name, &length, &sight), PG_DONE);
}

static void usage(int file) {
    (void)file;
    pg_usage usage;
    need(pg_usage_of(&volume, &usage), PG_DONE);
}

static const struct {
    const char *name;
    void (*make)(int file);
} calls[] = {{"create", create}, {"write", write}, {"truncate", truncate}, {"rename", rename_one},
             {"remove", remove_one}, {"refused", refused}, {"clean", clean}, {"look", look}, {"read", read_part},
             {"entry", entry}, {"usage", usage}};

static void fill(void) {
    pg_refusal refusal;
    memset(medium, 0xff, sizeof medium);
    memset(data, 'Z', sizeof data);
    need(pg_open(medium, sizeof medium, SECTOR_SIZE, &volume, &refusal), PG_DONE);
    changed(pg_mkdir(&volume, "/d", 2), PG_DONE);
    for (int file = 0; file < FILES; file++) {
        snprintf(paths[file], sizeof paths[file], "/d/f%03d", file % 1000);
        snprintf(others[file], sizeof others[file], "/d/x%03d", file % 1000);
        changed(pg_create(&volume, paths[file], PATH_LEN), PG_DONE);
        write(file);
    }
}

int main(int argc, char **argv) {
    int count = argc == 3 ? atoi(argv[2]) : -1;
    if (count < 0 || count > FILES)
        return 2;
    fill();
    for (size_t at = 0; at < sizeof calls / sizeof *calls; at++) {
        if (strcmp(calls[at].name, argv[1]) != 0)
            continue;
        for (int file = 0; file < count; file++)
            calls[at].make(file);
        pg_close(volume);
        return 0;
    }
    return 2;
}
