// The volume that is mounted, as the mount asks for it: in a file by `jffs_volume serve` (by_serve.c), or on a chip by
// the library for C (by_chip.c). What each call answers below 0 is an errno: -EINVAL where a path is none, and -EIO
// always once the volume can't be asked any more.
#ifndef PUMPGRAPE_VOLUME_H
#define PUMPGRAPE_VOLUME_H

#include <stddef.h>
#include <stdint.h>

// What stands at a path.
struct seen {
    int directory;
    uint64_t size;
};

// How full the volume is, in bytes: all sectors, what the live records weigh, and below which weight all has room.
struct room {
    uint64_t all, live, sure;
};

// What the volume takes at most, all in bytes but for `names`, how many a path may have.
struct limits {
    uint64_t write, name, names;
};

// Gets a name of a directory, and what stands there. Where it answers anything but 0 the names end.
typedef int (*each_name)(void *context, const char *name, const struct seen *seen);

struct volume {
    int (*look)(const char *path, struct seen *seen);
    int (*list)(const char *path, each_name each, void *context);
    // Reads up to `size` bytes, and answers how many.
    int (*read)(const char *path, char *bytes, size_t size, uint32_t offset);
    // Writes a piece of the longest write at most.
    int (*write)(const char *path, const char *bytes, size_t size, uint32_t offset);
    int (*create)(const char *path);
    int (*make_directory)(const char *path);
    int (*remove)(const char *path);
    int (*truncate)(const char *path, uint32_t size);
    // Gives what stands at `from` the free path `to`; -EXDEV where a directory would come into another one.
    int (*rename)(const char *from, const char *to);
    int (*room)(struct room *room);
    // Unmounts: 0 where the log was ended in order.
    int (*end)(void);
};

extern struct limits limits;

// Is called once the volume can't be asked any more, though no end was asked for, with why; NULL where nobody asks.
extern void (*volume_lost)(const char *why);

// Starts PROGRAM over the volume in the file IMAGE; or takes the chip IMAGE. The words may be NULL. Each answers 0 and
// sets `volume`, or answers the status to end with, once it has told on standard error why it can't be.
int start_by_serve(const struct volume **volume, const char *program, const char *image, const char *sector_size);
int start_by_chip(const struct volume **volume, const char *image, int read_only, const char *sector_size,
                  const char *sectors);
#endif
