// A NOR flash of Intel's command set (CFI), 8 bits wide, that the processor sees as memory: the driver of a volume.
#ifndef PUMPGRAPE_CFI_H
#define PUMPGRAPE_CFI_H

#include "pumpgrape_fs.h"

typedef struct cfi {
    pgfs_driver driver; // its context is this struct: it isn't moved while it is in use
    volatile uint8_t *bytes;
} cfi;

// Finds the chip whose last byte is the one before `end`, of 32 KiB to 8 MiB, and has the volume stand in its first
// sectors: as many as there are of this size, 64 at most. Answers 0, or 1 where there is none, or none of that size.
int cfi_open(cfi *chip, uintptr_t end, uint32_t sector_size, uint8_t *buffer, size_t buffer_len);
#endif
