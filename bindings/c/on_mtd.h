// A NOR flash behind Linux's /dev/mtdN as the driver of a volume.
#ifndef PUMPGRAPE_ON_MTD_H
#define PUMPGRAPE_ON_MTD_H

#include "pumpgrape_fs.h"

typedef struct on_mtd {
    pgfs_driver driver; // its context is this struct: it isn't moved while it is in use
    int file;
    // Where something was answered that isn't 0: why, in words.
    char why[160];
} on_mtd;

// Opens a chip for a volume at its begin, of so many sectors of so many bytes; 0 stands for what fits the chip: its
// block's size, or the least that holds it in 64 sectors; and as many sectors as it has. The buffer is allocated, and
// the device file locked against other programs that open it so. Answers 0, or 1 with `why` where it can't be opened
// or is no chip for a volume.
int on_mtd_open(on_mtd *chip, const char *path, bool read_only, uint32_t sector_size, uint32_t sectors);

void on_mtd_close(on_mtd *chip);
#endif
