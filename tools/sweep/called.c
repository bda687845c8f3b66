// Calls each function of the library for C, the plain way and with wrong arguments of each kind, on a volume of 6
// sectors of 1024 bytes. Each answer is compared with the one that pumpgrape.h and docs/SCRIPT.md have for it. It is
// linked with --wrap=malloc and --wrap=realloc. With AT the call of that number of these two is refused, with `on`
// each later one too: then it goes on, and takes the answers that follow from a refusal for right too.
//     called [AT [on]]
#include <stdio.h>
#include <stdlib.h>
#include <string.h>

#include "pumpgrape.h"

#define SECTORS 6
#define SIZE 1024

static uint8_t medium[SECTORS * SIZE];
static int refused, wrong, goes_on;
static long allocations, refuse_at;

void *__real_malloc(size_t);
void *__real_realloc(void *, size_t);
void *__wrap_malloc(size_t);
void *__wrap_realloc(void *, size_t);

static int refuse(void) {
    allocations++;
    return refused && (allocations == refuse_at || (goes_on && allocations > refuse_at));
}

void *__wrap_malloc(size_t size) { return refuse() ? NULL : __real_malloc(size); }

void *__wrap_realloc(void *old, size_t size) { return refuse() ? NULL : __real_realloc(old, size); }

static void expect(uint32_t found, uint32_t wanted, const char *what) {
    if (found == wanted || (refused && (found == PG_MEMORY || found == PG_DEVICE || found == PG_FAILED)))
        return;
    // After a change that was refused for memory the ones that build on it find nothing.
    if (refused && (found == PG_NOT_FOUND || found == PG_NO_PARENT || found == PG_NOTHING || found == PG_DONE))
        return;
    printf("%s: %u, wanted %u\n", what, found, wanted);
    wrong = 1;
}

static void holds(int fact, const char *what) {
    if (fact || refused)
        return;
    printf("%s\n", what);
    wrong = 1;
}

// Carries out the next call; 0 where none is left.
static int carry_out_one(pg_volume *volume) {
    pg_call call;
    uint8_t bytes[SIZE / 4];
    if (pg_next_call(volume, &call, bytes, sizeof bytes) != PG_DONE)
        return 0;
    for (uint32_t at = 0; at < call.len; at++)
        medium[call.at + at] = call.erase ? 0xff : medium[call.at + at] & bytes[at];
    expect(pg_carried_out(volume), PG_DONE, "pg_carried_out");
    return 1;
}

static void carry_out(pg_volume *volume) {
    while (carry_out_one(volume))
        ;
    holds(pg_calls_left(volume) == 0, "calls are left");
}

#define PATH(text) text, sizeof(text) - 1
#define CHANGE(code, call) (expect((call), (code), #call), carry_out(&volume))

static int open_medium(pg_volume *volume) {
    pg_refusal refusal = {7, 7, 7};
    uint32_t code = pg_open(medium, sizeof medium, SIZE, volume, &refusal);
    expect(code, PG_DONE, "pg_open");
    return code == PG_DONE;
}

static void changes(void) {
    pg_volume volume;
    if (!open_medium(&volume))
        return;
    uint8_t data[256] = "hello";
    CHANGE(PG_DONE, pg_mkdir(&volume, PATH("/d")));
    CHANGE(PG_DONE, pg_create(&volume, PATH("/d/f")));
    CHANGE(PG_DONE, pg_write(&volume, PATH("/d/f"), 0, data, 5));
    CHANGE(PG_DONE, pg_write(&volume, PATH("/d/f"), 5, data, 0));
    CHANGE(PG_DONE, pg_truncate(&volume, PATH("/d/f"), 4));
    CHANGE(PG_DONE, pg_rename(&volume, PATH("/d/f"), PATH("/d/g")));
    CHANGE(PG_ROOT_FIXED, pg_mkdir(&volume, PATH("/")));
    CHANGE(PG_NO_PARENT, pg_create(&volume, PATH("/none/f")));
    CHANGE(PG_NAME_TAKEN, pg_create(&volume, PATH("/d")));
    CHANGE(PG_NOT_FOUND, pg_remove(&volume, PATH("/none")));
    CHANGE(PG_IS_DIRECTORY, pg_write(&volume, PATH("/d"), 0, data, 1));
    CHANGE(PG_DATA_LONG, pg_write(&volume, PATH("/d/g"), 0, data, 193));
    CHANGE(PG_FILE_LONG, pg_truncate(&volume, PATH("/d/g"), 1048577));
    CHANGE(PG_FILE_LONG, pg_write(&volume, PATH("/d/g"), 1048576, data, 1));
    CHANGE(PG_FILE_LONG, pg_write(&volume, PATH("/d/g"), UINT32_MAX, data, 192));
    CHANGE(PG_NOT_EMPTY, pg_remove(&volume, PATH("/d")));
    pg_close(volume);
}

static void paths(void) {
    pg_volume volume;
    if (!open_medium(&volume))
        return;
    CHANGE(PG_PATH_NO_SLASH, pg_create(&volume, "", 0));
    CHANGE(PG_PATH_NO_SLASH, pg_create(&volume, PATH("f")));
    CHANGE(PG_PATH_NAME_EMPTY, pg_create(&volume, PATH("//f")));
    CHANGE(PG_PATH_NAME_EMPTY, pg_mkdir(&volume, PATH("/f/")));
    CHANGE(PG_PATH_NAME_LONG, pg_create(&volume, PATH("/123456789012345678901")));
    CHANGE(PG_PATH_NAME_BYTE, pg_create(&volume, PATH("/a b")));
    CHANGE(PG_PATH_NAME_BYTE, pg_create(&volume, PATH("/a\0b")));
    CHANGE(PG_PATH_NAME_BYTE, pg_create(&volume, PATH("/\xff")));
    CHANGE(PG_PATH_NAME_BYTE, pg_create(&volume, PATH("/\xc3\xa9")));
    CHANGE(PG_PATH_DEEP, pg_create(&volume, PATH("/1/2/3/4/5/6/7/8/9")));
    CHANGE(PG_PATH_NO_SLASH, pg_rename(&volume, PATH("/d"), PATH("e")));
    CHANGE(PG_PATH_NO_SLASH, pg_rename(&volume, PATH("d"), PATH("/e")));
    pg_close(volume);
}

static void looks(void) {
    pg_volume volume;
    if (!open_medium(&volume))
        return;
    pg_sight sight = {0};
    uint8_t buffer[8];
    char name[20];
    size_t count = 0, length = 0;
    bool found = true;
    pg_longest longest = {0};
    pg_usage usage = {0};
    expect(pg_look(&volume, PATH("/d"), &sight), PG_DONE, "pg_look");
    holds(sight.directory && sight.size == 0, "a directory");
    expect(pg_look(&volume, PATH("/d/g"), &sight), PG_DONE, "pg_look");
    holds(!sight.directory && sight.size == 4, "a file");
    expect(pg_look(&volume, PATH("/none"), &sight), PG_NOT_FOUND, "pg_look");
    expect(pg_look(&volume, PATH("none"), &sight), PG_PATH_NO_SLASH, "pg_look");
    expect(pg_read(&volume, PATH("/d/g"), 1, buffer, sizeof buffer, &count), PG_DONE, "pg_read");
    holds(count == 3 && memcmp(buffer, "ell", 3) == 0, "the bytes");
    expect(pg_read(&volume, PATH("/d/g"), 0, buffer, 2, &count), PG_DONE, "pg_read");
    holds(count == 2, "as many as the buffer takes");
    expect(pg_read(&volume, PATH("/d/g"), UINT32_MAX, buffer, sizeof buffer, &count), PG_DONE, "pg_read");
    holds(count == 0, "past the end");
    expect(pg_read(&volume, PATH("/d"), 0, buffer, sizeof buffer, &count), PG_IS_DIRECTORY, "pg_read");
    expect(pg_entry(&volume, PATH("/d"), 0, name, sizeof name, &length, &sight), PG_DONE, "pg_entry");
    holds(length == 1 && name[0] == 'g' && sight.size == 4, "the name");
    expect(pg_entry(&volume, PATH("/d"), 0, name, 0, &length, &sight), PG_BUFFER_SHORT, "pg_entry");
    expect(pg_entry(&volume, PATH("/d"), 1, name, sizeof name, &length, &sight), PG_NOTHING, "pg_entry");
    expect(pg_entry(&volume, PATH("/d"), UINT32_MAX, name, sizeof name, &length, &sight), PG_NOTHING, "pg_entry");
    expect(pg_entry(&volume, PATH("/d/g"), 0, name, sizeof name, &length, &sight), PG_NOTHING, "pg_entry");
    expect(pg_longest_of(&volume, &longest), PG_DONE, "pg_longest_of");
    holds(longest.write == 192 && longest.path == 168 && longest.name == 20 && longest.depth == 8 &&
          longest.file == 1048576, "how long things may be");
    expect(pg_usage_of(&volume, &usage), PG_DONE, "pg_usage_of");
    holds(usage.sectors == SECTORS && usage.sector_size == SIZE && usage.sure == 1408, "the sizes");
    expect(pg_is_clean(&volume, &found), PG_DONE, "pg_is_clean");
    holds(!found, "not unmounted");
    expect(pg_wants_cleaning(&volume, &found), PG_DONE, "pg_wants_cleaning");
    holds(!found, "much is erased");
    pg_close(volume);
}

// Two records of 256 bytes turn the ring until the oldest sector can be cleaned.
static void cleaning(void) {
    pg_volume volume;
    if (!open_medium(&volume))
        return;
    uint8_t data[192] = {1};
    bool wants = false;
    CHANGE(PG_DONE, pg_create(&volume, PATH("/turn")));
    for (int turn = 0; turn < 14; turn++)
        CHANGE(PG_DONE, pg_write(&volume, PATH("/turn"), 0, data, sizeof data));
    expect(pg_wants_cleaning(&volume, &wants), PG_DONE, "pg_wants_cleaning");
    holds(wants, "cleaning is worth it");
    CHANGE(PG_DONE, pg_clean(&volume));
    CHANGE(PG_DONE, pg_erase_dead(&volume));
    CHANGE(PG_DONE, pg_remove(&volume, PATH("/turn")));
    uint32_t code = PG_DONE;
    for (int turn = 0; turn < SECTORS && code == PG_DONE; turn++) {
        code = pg_clean(&volume);
        carry_out(&volume);
    }
    expect(code, PG_NOTHING, "pg_clean of one sector");
    CHANGE(PG_DONE, pg_unmount(&volume));
    expect(pg_is_clean(&volume, &wants), PG_DONE, "pg_is_clean");
    holds(wants, "unmounted");
    pg_close(volume);
}

// The changes while calls are left, and all but pg_close after a failure.
static void all_changes(pg_volume *volume, uint32_t code) {
    expect(pg_create(volume, PATH("/x")), code, "pg_create");
    expect(pg_create(volume, PATH("no path")), code, "pg_create");
    expect(pg_mkdir(volume, PATH("/x")), code, "pg_mkdir");
    expect(pg_remove(volume, PATH("/d/g")), code, "pg_remove");
    expect(pg_write(volume, PATH("/d/g"), 0, "x", 1), code, "pg_write");
    expect(pg_truncate(volume, PATH("/d/g"), 0), code, "pg_truncate");
    expect(pg_rename(volume, PATH("/d/g"), PATH("/d/h")), code, "pg_rename");
    expect(pg_unmount(volume), code, "pg_unmount");
    expect(pg_clean(volume), code, "pg_clean");
    expect(pg_erase_dead(volume), code, "pg_erase_dead");
}

static void all_looks(pg_volume *volume, uint32_t code) {
    pg_sight sight;
    uint8_t buffer[8];
    char name[20];
    size_t count;
    bool found;
    pg_longest longest;
    pg_usage usage;
    expect(pg_look(volume, PATH("/d/g"), &sight), code, "pg_look");
    expect(pg_read(volume, PATH("/d/g"), 0, buffer, sizeof buffer, &count), code, "pg_read");
    expect(pg_entry(volume, PATH("/d"), 0, name, sizeof name, &count, &sight), code, "pg_entry");
    expect(pg_longest_of(volume, &longest), code, "pg_longest_of");
    expect(pg_usage_of(volume, &usage), code, "pg_usage_of");
    expect(pg_wants_cleaning(volume, &found), code, "pg_wants_cleaning");
    expect(pg_is_clean(volume, &found), code, "pg_is_clean");
}

static void phases(void) {
    pg_volume volume;
    if (!open_medium(&volume))
        return;
    pg_call call = {0};
    uint8_t buffer[SIZE / 4];
    expect(pg_next_call(&volume, &call, buffer, sizeof buffer), PG_NOTHING, "pg_next_call");
    expect(pg_carried_out(&volume), PG_NOTHING, "pg_carried_out");
    expect(pg_call_failed(&volume), PG_NOTHING, "pg_call_failed");
    uint32_t made = pg_create(&volume, PATH("/left"));
    expect(made, PG_DONE, "pg_create");
    if (made != PG_DONE) // refused for memory, so that no call is left
        return pg_close(volume);
    holds(pg_calls_left(&volume) == 2, "the record and its gate");
    expect(pg_next_call(&volume, &call, buffer, 0), PG_BUFFER_SHORT, "pg_next_call");
    holds(!call.erase && call.len == 64, "how long the record is");
    all_changes(&volume, PG_CALLS_LEFT);
    all_looks(&volume, PG_DONE);
    holds(pg_calls_left(&volume) == 2, "as many as before");
    expect(pg_next_call(&volume, &call, buffer, sizeof buffer), PG_DONE, "pg_next_call");
    expect(pg_call_failed(&volume), PG_DONE, "pg_call_failed");
    all_changes(&volume, PG_FAILED);
    all_looks(&volume, PG_FAILED);
    expect(pg_next_call(&volume, &call, buffer, sizeof buffer), PG_FAILED, "pg_next_call");
    expect(pg_carried_out(&volume), PG_FAILED, "pg_carried_out");
    expect(pg_call_failed(&volume), PG_FAILED, "pg_call_failed");
    holds(pg_calls_left(&volume) == 0, "none after a failure");
    pg_close(volume);
}

// Carrying out stops once a sector is doomed: the next opening leaves the two calls that end its erase.
static void cut_off(void) {
    pg_volume volume;
    if (!open_medium(&volume))
        return;
    uint8_t data[192] = {2};
    CHANGE(PG_DONE, pg_create(&volume, PATH("/cut")));
    for (int turn = 0; turn < 4; turn++)
        CHANGE(PG_DONE, pg_write(&volume, PATH("/cut"), 0, data, sizeof data));
    expect(pg_clean(&volume), PG_DONE, "pg_clean");
    while (pg_calls_left(&volume) > 1)
        carry_out_one(&volume);
    pg_close(volume);
    if (!open_medium(&volume))
        return;
    holds(pg_calls_left(&volume) == 2, "what ends the erase");
    all_changes(&volume, PG_CALLS_LEFT);
    all_looks(&volume, PG_DONE);
    carry_out(&volume);
    CHANGE(PG_DONE, pg_remove(&volume, PATH("/cut")));
    pg_close(volume);
}

static void refusal_is(size_t length, uint32_t size, uint32_t wanted, uint32_t sector, uint32_t place, uint32_t rule) {
    pg_volume volume = {medium};
    pg_refusal refusal = {0};
    uint32_t code = pg_open(medium, length, size, &volume, &refusal);
    expect(code, wanted, "pg_open");
    if (code == PG_DONE)
        pg_close(volume);
    holds(refusal.sector == sector && refusal.place == place && refusal.rule == rule, "why it is refused");
    holds(code == PG_DONE || volume.inner == medium, "nothing is written where it is refused");
}

static void refusals(void) {
    refusal_is(0, SIZE, PG_GEOMETRY, 0, 0, 0);
    refusal_is(sizeof medium, 0, PG_GEOMETRY, 0, 0, 0);
    refusal_is(sizeof medium, 1000, PG_GEOMETRY, 0, 0, 0);
    refusal_is(sizeof medium, UINT32_MAX, PG_GEOMETRY, 0, 0, 0);
    refusal_is(sizeof medium - 1, SIZE, PG_GEOMETRY, 0, 0, 0);
    refusal_is(5 * SIZE, SIZE, PG_GEOMETRY, 0, 0, 0);
    memset(medium, 0, sizeof medium);
    refusal_is(sizeof medium, SIZE, PG_BAD_RECORD, 0, 0, 1);
    memset(medium, 0xff, sizeof medium);
    for (int sector = 0; sector < SECTORS; sector++)
        medium[sector * SIZE] = 0;
    refusal_is(sizeof medium, SIZE, PG_NO_ERASED, 0, 0, 0);
    memset(medium, 0xff, sizeof medium);
    medium[0] = medium[2 * SIZE] = 0;
    refusal_is(sizeof medium, SIZE, PG_SCATTERED, 0, 0, 0);
    memset(medium, 0xff, sizeof medium);
}

// A log of one record: it stands there twice, and then in a directory that isn't there.
static void bad_log(void) {
    pg_volume volume;
    if (!open_medium(&volume))
        return;
    CHANGE(PG_DONE, pg_create(&volume, PATH("/f")));
    pg_close(volume);
    memcpy(medium + SIZE, medium, SIZE);
    refusal_is(sizeof medium, SIZE, PG_BAD_ORDER, 0, 0, 0);
    memset(medium + SIZE, 0xff, SIZE);
    medium[15] = 9; // the last byte of the record's directory
    refusal_is(sizeof medium, SIZE, PG_BAD_TREE, 0, 0, 0);
    memset(medium, 0xff, sizeof medium);
}

// A closed record whose kind is none: the place and the rule are told.
static void bad_record(void) {
    pg_volume volume;
    if (!open_medium(&volume))
        return;
    CHANGE(PG_DONE, pg_create(&volume, PATH("/f")));
    CHANGE(PG_DONE, pg_create(&volume, PATH("/g")));
    pg_close(volume);
    medium[SIZE * 0 + 64] = 0;
    uint32_t sector = medium[SIZE] == 0xff ? 0 : 1;
    medium[sector * SIZE + 64] = 0;
    refusal_is(sizeof medium, SIZE, PG_BAD_RECORD, sector, 64, 1);
    memset(medium, 0xff, sizeof medium);
}

// The name of each code, and what it says.
static const char *const WORDS[][2] = {
    {"Done", "done"},
    {"RootFixed", "the root stays as it is"},
    {"NoParent", "the directory of the path isn't there"},
    {"NameTaken", "the path is taken"},
    {"NotFound", "nothing stands at the path"},
    {"IsDirectory", "this can't be done to a directory"},
    {"DataLong", "the data is too long for one node"},
    {"FileLong", "the file would be too long"},
    {"NotEmpty", "the directory isn't empty"},
    {"NotNeeded", "no live node has this version"},
    {"Stale", "the copy isn't current"},
    {"InodesSpent", "no inode number is left"},
    {"VersionsSpent", "no version is left"},
    {"Memory", "memory was refused"},
    {"NoSpace", "the log has no room"},
    {"Device", "the flash failed"},
    {"Failed", "the flash failed earlier"},
    {"CallsLeft", "calls of the device are left"},
    {"Nothing", "there is none"},
    {"BufferShort", "the buffer is too short"},
    {"PathNoSlash", "a path begins with a slash"},
    {"PathNameEmpty", "a name is empty"},
    {"PathNameLong", "a name is longer than 20 bytes"},
    {"PathNameByte", "a name has a byte that is not allowed"},
    {"PathDeep", "a path has more than 8 names"},
    {"Geometry", "no volume has these sizes"},
    {"BadRecord", "a record is bad"},
    {"NoErased", "no sector is erased"},
    {"Scattered", "the erased sectors are scattered"},
    {"BadOrder", "the versions of the log don't rise"},
    {"BadTree", "the nodes of the log make no tree"},
};

static int is_text(const char *wanted, const char *text, size_t length) {
    return length == strlen(wanted) && memcmp(text, wanted, length) == 0;
}

static void words(void) {
    char text[64];
    for (uint32_t code = 0; code <= PG_BAD_TREE; code++) {
        holds(is_text(WORDS[code][0], text, pg_name(code, text, sizeof text)), WORDS[code][0]);
        holds(is_text(WORDS[code][1], text, pg_text(code, text, sizeof text)), WORDS[code][1]);
        holds(pg_name(code, text, 1) == 0 && pg_text(code, text, 1) == 0, "a short buffer");
    }
    holds(pg_name(PG_BAD_TREE + 1, text, sizeof text) == 0 && pg_text(UINT32_MAX, text, 64) == 0, "no such code");
}

int main(int argc, char **argv) {
    refused = argc > 1;
    goes_on = argc > 2;
    refuse_at = refused ? atol(argv[1]) : 0;
    memset(medium, 0xff, sizeof medium);
    changes();
    paths();
    looks();
    phases();
    cut_off();
    memset(medium, 0xff, sizeof medium);
    cleaning();
    memset(medium, 0xff, sizeof medium);
    refusals();
    bad_record();
    bad_log();
    words();
    printf("%s %ld\n", wrong ? "wrong" : "right", allocations);
    return wrong;
}
