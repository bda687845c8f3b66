// Pumpgrape: a volume of JFFS version 1 whose core is proved. docs/C.md says how this is used, and what is trusted.
//
// The library touches no device. A change is answered from memory, and leaves calls of the device that the program
// carries out, one after another, in their order: the program asks for the next with pg_next_call, carries it out,
// and says so with pg_carried_out, or pg_call_failed. While calls are left each change is answered PG_CALLS_LEFT.
// After a failure everything but pg_close is answered PG_FAILED. Wherever carrying out stops, also in the midst of a
// call, of an erase too, the medium then opens with all changes whose calls were carried out whole, and perhaps the
// one in hand. An erase is two calls: a program that clears the first bytes of the sector, by which an erase that was
// cut off is known, and the erase. docs/C.md says what a sector may hold after one.
//
// What a caller owes: each pointer leads to what its type says, also where a length is 0, and none is null; what one
// function gets of memory that is written overlaps nothing else that it gets; a volume is used by one thread at a
// time, and never by a signal handler. A volume is used only after pg_open answered PG_DONE, and no more after
// pg_close.
#ifndef PUMPGRAPE_H
#define PUMPGRAPE_H

#include <stdbool.h>
#include <stddef.h>
#include <stdint.h>

#ifdef __cplusplus
extern "C" {
#endif

// What a function answers. pg_name and pg_text have words for each.
enum pg_code {
    PG_DONE = 0,
    PG_ROOT_FIXED = 1,
    PG_NO_PARENT = 2,
    PG_NAME_TAKEN = 3,
    PG_NOT_FOUND = 4,
    PG_IS_DIRECTORY = 5,
    PG_DATA_LONG = 6,
    PG_FILE_LONG = 7,
    PG_NOT_EMPTY = 8,
    PG_NOT_NEEDED = 9,
    PG_STALE = 10,
    PG_INODES_SPENT = 11,
    PG_VERSIONS_SPENT = 12,
    PG_MEMORY = 13,
    PG_NO_SPACE = 14,
    PG_DEVICE = 15,
    PG_FAILED = 16,
    PG_CALLS_LEFT = 17,
    PG_NOTHING = 18,
    PG_BUFFER_SHORT = 19,
    PG_PATH_NO_SLASH = 20,
    PG_PATH_NAME_EMPTY = 21,
    PG_PATH_NAME_LONG = 22,
    PG_PATH_NAME_BYTE = 23,
    PG_PATH_DEEP = 24,
    PG_GEOMETRY = 25,
    PG_BAD_RECORD = 26,
    PG_NO_ERASED = 27,
    PG_SCATTERED = 28,
    PG_BAD_ORDER = 29,
    PG_BAD_TREE = 30
};

// A volume. Its memory is the library's until pg_close.
typedef struct pg_volume {
    void *inner;
} pg_volume;

// What a refused medium is refused for; all are 0 but for PG_BAD_RECORD.
typedef struct pg_refusal {
    uint32_t sector; // of the bad record, counted from 0
    uint32_t place;  // where it begins in the sector, in bytes
    uint32_t rule;   // that it breaks: 1 Magic, 2 Kind, 3 Flags, 4 Name, 5 Form, 6 Spare, 7 Size, 8 Pad
} pg_refusal;

// A call of the device.
typedef struct pg_call {
    bool erase;   // each byte of a sector becomes 0xff; else each byte `old` of the range becomes `old & new`
    uint32_t at;  // where it begins on the medium, in bytes
    uint32_t len; // how many bytes it changes
} pg_call;

// What stands at a path.
typedef struct pg_sight {
    bool directory;
    uint32_t size; // bytes of a file; 0 for a directory
} pg_sight;

// How long things may be, in bytes, but for the depth.
typedef struct pg_longest {
    uint32_t write; // what one pg_write carries
    uint32_t path;
    uint32_t name;
    uint32_t depth; // names of a path
    uint32_t file;
} pg_longest;

// How full a volume is.
typedef struct pg_usage {
    uint32_t sectors;
    uint32_t sector_size; // bytes
    uint32_t erased;      // sectors
    uint32_t records;
    uint64_t weight; // what the live records weigh, in bytes
    uint64_t sure;   // below it no change is answered PG_NO_SPACE while two sectors are erased
} pg_usage;

// Mounts a copy of the medium's bytes, which are whole sectors of this size: 6 to 64 of 1024, 2048, 4096, 8192 or
// 16384 bytes. A medium of bytes 0xff is an empty volume. `volume` is written only where PG_DONE is answered.
// Where an erase was cut off on it, the calls that end it are left, as after a change.
// PG_GEOMETRY, PG_BAD_RECORD (`refusal` says where), PG_NO_ERASED, PG_SCATTERED, PG_BAD_ORDER, PG_BAD_TREE,
// PG_MEMORY.
uint32_t pg_open(const uint8_t *medium, size_t medium_len, uint32_t sector_size, pg_volume *volume,
                 pg_refusal *refusal);

// Gives all memory back. It leaves no call of the device: unmount first, and carry out what is left.
void pg_close(pg_volume volume);

// The changes. Each is answered PG_CALLS_LEFT while calls are left, PG_FAILED after a failure, and changes nothing
// then; for a path that is none by one of PG_PATH_..; and by the causes of docs/SCRIPT.md. Calls may be left after a
// refusal too, as PG_NO_SPACE, which comes after cleaning: they are carried out as after PG_DONE.
uint32_t pg_create(pg_volume *volume, const char *path, size_t path_len);
uint32_t pg_mkdir(pg_volume *volume, const char *path, size_t path_len);
uint32_t pg_remove(pg_volume *volume, const char *path, size_t path_len);
uint32_t pg_write(pg_volume *volume, const char *path, size_t path_len, uint32_t offset, const void *bytes,
                  size_t bytes_len);
uint32_t pg_truncate(pg_volume *volume, const char *path, size_t path_len, uint32_t size);
uint32_t pg_rename(pg_volume *volume, const char *from, size_t from_len, const char *to, size_t to_len);

// Ends the log with an unmount record, after which the volume opens as clean.
uint32_t pg_unmount(pg_volume *volume);

// Copies what lives in the oldest sector, and erases it. PG_NOTHING where the log has one sector at most.
uint32_t pg_clean(pg_volume *volume);

// Erases the dead sectors, the oldest first, up to one that has a live record.
uint32_t pg_erase_dead(pg_volume *volume);

// The next call of the device; the bytes of a program are copied to `buffer`, for which a quarter of a sector is
// enough. PG_NOTHING where no call is left; PG_BUFFER_SHORT, after which `call` says how many bytes there are.
uint32_t pg_next_call(pg_volume *volume, pg_call *call, uint8_t *buffer, size_t buffer_len);

// The next call was carried out. PG_NOTHING where none is left.
uint32_t pg_carried_out(pg_volume *volume);

// The next call failed, or its outcome isn't known. From then on everything but pg_close is answered PG_FAILED: the
// medium is to be opened anew. PG_NOTHING where none is left.
uint32_t pg_call_failed(pg_volume *volume);

// How many calls are left; 0 after a failure.
uint32_t pg_calls_left(pg_volume *volume);

// The looks. They see each change as soon as it is answered, and are answered PG_FAILED after a failure. What they
// write is written only where PG_DONE is answered.
uint32_t pg_look(pg_volume *volume, const char *path, size_t path_len, pg_sight *sight);

// Copies the bytes of a file from `offset` on, as many as there are and as `buffer` takes; `count` says how many.
uint32_t pg_read(pg_volume *volume, const char *path, size_t path_len, uint32_t offset, uint8_t *buffer,
                 size_t buffer_len, size_t *count);

// The name with this number in a directory, counted from 0 in the order of their bytes; at most 20 bytes, with no 0
// after them. PG_NOTHING where there are fewer, or a file stands there.
uint32_t pg_entry(pg_volume *volume, const char *path, size_t path_len, uint32_t number, char *name, size_t name_size,
                  size_t *name_len, pg_sight *sight);

uint32_t pg_longest_of(pg_volume *volume, pg_longest *longest);
uint32_t pg_usage_of(pg_volume *volume, pg_usage *usage);

// Whether cleaning is worth it: the oldest sector isn't the last, and at most half of the sectors are erased.
uint32_t pg_wants_cleaning(pg_volume *volume, bool *wants);

// Whether the volume was unmounted, and nothing was changed since.
uint32_t pg_is_clean(pg_volume *volume, bool *clean);

// The name of a code, as `NotFound`, and what it says, as `nothing stands at the path`. They answer how long it is; 0
// where there is no such code, or `buffer` is shorter.
size_t pg_name(uint32_t code, char *buffer, size_t buffer_len);
size_t pg_text(uint32_t code, char *buffer, size_t buffer_len);

#ifdef __cplusplus
}
#endif

#endif
