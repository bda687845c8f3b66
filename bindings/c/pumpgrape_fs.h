// A volume by paths, over a driver that carries out the calls of the device: a thin layer over pumpgrape.h, whose codes
// it answers. It knows nothing of the file system. docs/C.md says how it is used.
//
// A call that changes something is answered once the driver has carried out everything that it left, in order, also
// where it was refused. So between two calls nothing is left, and PG_CALLS_LEFT is no answer here. Where the driver
// fails the answer is PG_DEVICE, and PG_FAILED from then on: the volume is unmounted and mounted anew.
//
// A path is text up to its null byte. What pumpgrape.h says of pointers and threads holds here too.
#ifndef PUMPGRAPE_FS_H
#define PUMPGRAPE_FS_H

#include "pumpgrape.h"

#ifdef __cplusplus
extern "C" {
#endif

// A device. Each function gets `context`, and answers 0 once it is done, and anything else where it failed or its
// outcome isn't known. All places and lengths are in bytes.
typedef struct pgfs_driver {
    void *context;
    // Reads so many bytes of the medium from `at` on. It is asked for at a mount alone.
    int (*read)(void *context, uint32_t at, uint8_t *buffer, uint32_t len);
    // Each byte `old` of the range becomes `old & new`. The range lies in one sector.
    int (*program)(void *context, uint32_t at, const uint8_t *bytes, uint32_t len);
    // Each byte of the block that begins at `at` becomes 0xff; `len` is its size.
    int (*erase)(void *context, uint32_t at, uint32_t len);
    // Brings to the medium what was programmed and erased so far: asked for after each of these calls, before it counts
    // as carried out. NULL where they do that by themselves.
    int (*sync)(void *context);
    uint32_t sector_size; // 1024, 2048, 4096, 8192 or 16384
    uint32_t sectors;     // 6 to 64
    uint32_t block;       // how much the device erases at once: a sector is one block of it or several
    // Memory of the caller, which holds the whole medium while it is mounted; after that only its first quarter of a
    // sector is used, until the unmount.
    uint8_t *buffer;
    size_t buffer_len;
} pgfs_driver;

// A mounted volume.
typedef struct pgfs {
    pg_volume volume; // for what pumpgrape.h has besides, such as pg_longest_of
    const pgfs_driver *driver;
    pg_refusal refusal; // where pgfs_mount answered PG_BAD_RECORD
} pgfs;

// Erases each sector, which leaves an empty volume. Whatever stood there is lost. PG_DEVICE, or PG_GEOMETRY where a
// sector isn't whole blocks.
uint32_t pgfs_format(const pgfs_driver *driver);

// Reads the medium, opens it, and ends an erase that was cut off. The driver stays in use until the unmount. By the
// codes of pg_open, PG_DEVICE, and PG_BUFFER_SHORT where `buffer` is shorter than the medium.
uint32_t pgfs_mount(pgfs *fs, const pgfs_driver *driver);

// The same to look only: nothing is programmed or erased, and no change may be asked for. It ends by pgfs_close.
uint32_t pgfs_open(pgfs *fs, const pgfs_driver *driver);

// Ends the log in order, and gives the memory back whatever the answer is.
uint32_t pgfs_unmount(pgfs *fs);

// Gives the memory back, and leaves the medium as it is.
void pgfs_close(pgfs *fs);

uint32_t pgfs_create(pgfs *fs, const char *path);
uint32_t pgfs_mkdir(pgfs *fs, const char *path);
uint32_t pgfs_remove(pgfs *fs, const char *path);
uint32_t pgfs_rename(pgfs *fs, const char *from, const char *to);
uint32_t pgfs_truncate(pgfs *fs, const char *path, uint32_t size);

// Writes any number of bytes, in pieces of the longest write. Each piece is one change of its own: where one is
// refused, or the power goes, those before it stay. `written` says how many bytes were written, also where it is
// refused.
uint32_t pgfs_write(pgfs *fs, const char *path, uint32_t offset, const void *bytes, size_t len, size_t *written);

// Reads the bytes from `offset` on, as many as there are and as `buffer` takes; `count` says how many.
uint32_t pgfs_read(pgfs *fs, const char *path, uint32_t offset, void *buffer, size_t len, size_t *count);

uint32_t pgfs_stat(pgfs *fs, const char *path, pg_sight *sight);

// Calls `entry` with each name of a directory, in the order of their bytes, until it answers false. It may look at the
// volume, but not change it. A file has no names.
typedef bool (*pgfs_entry)(void *context, const char *name, const pg_sight *sight);
uint32_t pgfs_list(pgfs *fs, const char *path, pgfs_entry entry, void *context);

uint32_t pgfs_usage(pgfs *fs, pg_usage *usage);

// Cleans the oldest sector where that is worth it: for a device that has nothing else to do. PG_NOTHING where it isn't.
uint32_t pgfs_clean(pgfs *fs);

#ifdef __cplusplus
}
#endif

#endif
