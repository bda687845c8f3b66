// Where work.c makes its files: a directory, or a chip by the library for C. What answers a number answers -1 where it
// is refused.
#ifndef PUMPGRAPE_WORK_H
#define PUMPGRAPE_WORK_H

#include <stddef.h>
#include <stdint.h>

struct place {
    // Mounts, which is timed: of a directory nothing.
    int (*open)(const char *path);
    // A new file with its bytes; or the bytes over those of a file from `at` on. Both are on the medium then.
    int (*create)(const char *name, const uint8_t *bytes, size_t len);
    int (*overwrite)(const char *name, const uint8_t *bytes, size_t len, uint32_t at);
    int (*read)(const char *name, uint8_t *bytes, size_t len, uint32_t at);
    // Looks at all names, or with their sizes; how many there are.
    int (*list)(int sizes);
    int (*rename)(const char *from, const char *to);
    int (*remove)(const char *name);
    void (*close)(void);
};

extern const struct place on_chip, in_directory;
#endif
