// In place of by_chip.c where the library for C isn't built.
#include <stdio.h>

#include "volume.h"

int start_by_chip(const struct volume **volume, const char *image, int read_only, const char *sector_size,
                  const char *sectors) {
    (void)volume, (void)read_only, (void)sector_size, (void)sectors;
    fprintf(stderr, "pumpgrape-mount: %s: this program was built without the library for C, which drives chips\n",
            image);
    return 2;
}
