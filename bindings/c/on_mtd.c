#include "on_mtd.h"

#include <errno.h>
#include <fcntl.h>
#include <mtd/mtd-user.h>
#include <stdarg.h>
#include <stdio.h>
#include <stdlib.h>
#include <string.h>
#include <sys/file.h>
#include <sys/ioctl.h>
#include <sys/stat.h>
#include <unistd.h>

enum { LEAST_SIZE = 1024, MOST_SIZE = 16384, LEAST_SECTORS = 6, MOST_SECTORS = 64 };

__attribute__((format(printf, 2, 3)))
static int refused(on_mtd *chip, const char *form, ...) {
    va_list words;
    va_start(words, form);
    vsnprintf(chip->why, sizeof chip->why, form, words);
    va_end(words);
    return 1;
}

static int failed(on_mtd *chip, const char *what, uint32_t at) {
    return refused(chip, "%s at %u failed: %s", what, at, strerror(errno));
}

static int mtd_read(void *context, uint32_t at, uint8_t *buffer, uint32_t len) {
    on_mtd *chip = context;
    while (len > 0) {
        ssize_t got = pread(chip->file, buffer, len, at);
        if (got < 0 && errno == EINTR)
            continue;
        if (got <= 0)
            return got == 0 ? refused(chip, "the chip ends at %u", at) : failed(chip, "a read", at);
        at += (uint32_t)got, buffer += got, len -= (uint32_t)got;
    }
    return 0;
}

// No program of the library asks a bit to rise, so one that would says that the chip isn't what was read at the mount.
static int look_before(on_mtd *chip, uint32_t at, const uint8_t *bytes, uint32_t len) {
    uint8_t old[MOST_SIZE];
    if (len > sizeof old)
        return refused(chip, "a program of %u bytes", len);
    if (mtd_read(chip, at, old, len) != 0)
        return 1;
    for (uint32_t byte = 0; byte < len; byte++)
        if ((bytes[byte] & ~old[byte]) != 0)
            return refused(chip, "a bit at %u would have to rise", at + byte);
    return 0;
}

// The kernel answers once the chip has programmed all of it.
static int mtd_program(void *context, uint32_t at, const uint8_t *bytes, uint32_t len) {
    on_mtd *chip = context;
    if (look_before(chip, at, bytes, len) != 0)
        return 1;
    while (len > 0) {
        ssize_t put = pwrite(chip->file, bytes, len, at);
        if (put < 0 && errno == EINTR)
            continue;
        if (put <= 0)
            return failed(chip, "a program", at);
        at += (uint32_t)put, bytes += put, len -= (uint32_t)put;
    }
    return 0;
}

static int mtd_erase(void *context, uint32_t at, uint32_t len) {
    on_mtd *chip = context;
    struct erase_info_user range = {.start = at, .length = len};
    return ioctl(chip->file, MEMERASE, &range) == 0 ? 0 : failed(chip, "an erase", at);
}

// Whether single bytes of the chip can be programmed, and bits of a programmed byte cleared.
static int look_at_kind(on_mtd *chip, const struct mtd_info_user *info) {
    if (info->type == MTD_NANDFLASH || info->type == MTD_MLCNANDFLASH)
        return refused(chip, "it is NAND flash: a volume needs NOR flash");
    if (info->type != MTD_NORFLASH && info->type != MTD_RAM)
        return refused(chip, "it is no NOR flash: its type is %u", info->type);
    if (!(info->flags & MTD_WRITEABLE))
        return refused(chip, "it can't be written");
    if (info->writesize != 1 || !(info->flags & MTD_BIT_WRITEABLE))
        return refused(chip, "its bytes can't be programmed twice: it writes %u at once", info->writesize);
    return 0;
}

// Sets how the volume lies on the chip.
static int measure(on_mtd *chip, const struct mtd_info_user *info, uint32_t sector_size, uint32_t sectors) {
    uint32_t size = sector_size;
    if (size == 0)
        for (size = LEAST_SIZE; size < MOST_SIZE && (size < info->erasesize || info->size / size > MOST_SECTORS);)
            size *= 2;
    if (size < LEAST_SIZE || size > MOST_SIZE || (size & (size - 1)) != 0)
        return refused(chip, "a sector has 1024, 2048, 4096, 8192 or 16384 bytes, not %u", size);
    if (info->erasesize == 0 || size % info->erasesize != 0)
        return refused(chip, "it erases %u bytes at once, which no sector of %u is made of", info->erasesize, size);
    uint32_t there = info->size / size;
    if (sectors == 0 && there > MOST_SECTORS)
        return refused(chip, "it has %u sectors of %u bytes: how many of them (6 to 64) the volume has, has to be said",
                       there, size);
    sectors = sectors == 0 ? there : sectors;
    if (sectors < LEAST_SECTORS || sectors > MOST_SECTORS)
        return refused(chip, "a volume has 6 to 64 sectors, not %u of %u bytes", sectors, size);
    if (sectors > there)
        return refused(chip, "it has only %u sectors of %u bytes", there, size);
    chip->driver.sector_size = size;
    chip->driver.sectors = sectors;
    chip->driver.block = info->erasesize;
    return 0;
}

// Chips that wake up locked are unlocked; those without locks refuse the call as unknown.
static int unlock(on_mtd *chip) {
    struct erase_info_user all = {.start = 0, .length = chip->driver.sectors * chip->driver.sector_size};
    if (ioctl(chip->file, MEMUNLOCK, &all) == 0 || errno == EOPNOTSUPP || errno == ENOTTY)
        return 0;
    return failed(chip, "an unlock", 0);
}

static int open_file(on_mtd *chip, const char *path, bool read_only, struct mtd_info_user *info) {
    struct stat seen;
    chip->file = open(path, (read_only ? O_RDONLY : O_RDWR) | O_CLOEXEC);
    if (chip->file < 0 || fstat(chip->file, &seen) != 0)
        return refused(chip, "%s", strerror(errno));
    if (!S_ISCHR(seen.st_mode) || ioctl(chip->file, MEMGETINFO, info) != 0)
        return refused(chip, "it is no chip's device file, as /dev/mtd0 is");
    if (flock(chip->file, (read_only ? LOCK_SH : LOCK_EX) | LOCK_NB) != 0)
        return refused(chip, "another program has it open");
    return 0;
}

int on_mtd_open(on_mtd *chip, const char *path, bool read_only, uint32_t sector_size, uint32_t sectors) {
    struct mtd_info_user info;
    *chip = (on_mtd){.driver = {chip, mtd_read, mtd_program, mtd_erase, NULL, 0, 0, 0, NULL, 0}, .file = -1};
    if (open_file(chip, path, read_only, &info) != 0 || look_at_kind(chip, &info) != 0 ||
        measure(chip, &info, sector_size, sectors) != 0 || (!read_only && unlock(chip) != 0)) {
        on_mtd_close(chip);
        return 1;
    }
    chip->driver.buffer_len = (size_t)chip->driver.sectors * chip->driver.sector_size;
    chip->driver.buffer = malloc(chip->driver.buffer_len);
    if (chip->driver.buffer == NULL) {
        on_mtd_close(chip);
        return refused(chip, "out of memory");
    }
    return 0;
}

void on_mtd_close(on_mtd *chip) {
    if (chip->file >= 0)
        close(chip->file);
    free(chip->driver.buffer);
    chip->file = -1;
    chip->driver.buffer = NULL;
}
