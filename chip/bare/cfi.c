#include "cfi.h"

// What is written to the chip, and where it is asked what it is.
enum {
    READ = 0xff,
    QUERY = 0x98,
    QUERY_AT = 0x55,
    PROGRAM = 0x40,
    ERASE = 0x20,
    CONFIRM = 0xd0,
    LOCKS = 0x60,
    CLEAR_STATUS = 0x50
};

// Its status: whether it has ended, and what went wrong.
enum { READY = 0x80, WRONG = 0x3a };

// The places of what it says of itself.
enum { MARK = 0x10, SIZE_POWER = 0x27, REGIONS = 0x2c, BLOCK_SIZE = 0x2f };

enum { LEAST_SIZE = 32 << 10, MOST_SIZE = 8 << 20, MOST_SECTORS = 64 };

// Waits until the chip has done what it was asked for.
static void wait(volatile uint8_t *at) {
    while ((*at & READY) == 0) {
    }
}

// Leaves the chip to be read; whether something went wrong since.
static int ended(volatile uint8_t *at) {
    uint8_t status = *at;
    *at = CLEAR_STATUS;
    *at = READ;
    return (status & WRONG) != 0;
}

static int chip_read(void *context, uint32_t at, uint8_t *buffer, uint32_t len) {
    cfi *chip = context;
    for (uint32_t byte = 0; byte < len; byte++)
        buffer[byte] = chip->bytes[at + byte];
    return 0;
}

// Whether bits would have to rise.
static bool rises(const volatile uint8_t *at, const uint8_t *bytes, uint32_t len) {
    for (uint32_t byte = 0; byte < len; byte++)
        if ((bytes[byte] & ~at[byte]) != 0)
            return true;
    return false;
}

static bool reads(const volatile uint8_t *at, const uint8_t *bytes, uint32_t len) {
    for (uint32_t byte = 0; byte < len; byte++)
        if (at[byte] != bytes[byte])
            return false;
    return true;
}

// Between two bytes the chip isn't read, so it needn't change to that and back.
static int chip_program(void *context, uint32_t at, const uint8_t *bytes, uint32_t len) {
    cfi *chip = context;
    volatile uint8_t *to = &chip->bytes[at];
    if (rises(to, bytes, len))
        return 1;
    for (uint32_t byte = 0; byte < len; byte++) {
        to[byte] = PROGRAM;
        to[byte] = bytes[byte];
        wait(&to[byte]);
    }
    return ended(to) || !reads(to, bytes, len);
}

static int chip_erase(void *context, uint32_t at, uint32_t len) {
    cfi *chip = context;
    volatile uint8_t *block = &chip->bytes[at];
    (void)len;
    *block = ERASE;
    *block = CONFIRM;
    wait(block);
    return ended(block);
}

// Whether a chip of so many bytes begins there; then the size of its blocks is known.
static bool is_chip(cfi *chip, uintptr_t at, uint32_t size) {
    volatile uint8_t *bytes = (volatile uint8_t *)at;
    bytes[QUERY_AT] = QUERY;
    bool found = bytes[MARK] == 'Q' && bytes[MARK + 1] == 'R' && bytes[MARK + 2] == 'Y' &&
                 size == (uint32_t)1 << (bytes[SIZE_POWER] & 31) && bytes[REGIONS] == 1;
    chip->bytes = bytes;
    chip->driver.block = 256u * (bytes[BLOCK_SIZE] + 256u * bytes[BLOCK_SIZE + 1]);
    bytes[0] = READ;
    return found;
}

// Chips wake up with locked blocks.
static void unlock(cfi *chip, uint32_t size) {
    for (uint32_t at = 0; at < size; at += chip->driver.block) {
        chip->bytes[at] = LOCKS;
        chip->bytes[at] = CONFIRM;
        chip->bytes[at] = READ;
    }
}

int cfi_open(cfi *chip, uintptr_t end, uint32_t sector_size, uint8_t *buffer, size_t buffer_len) {
    uint32_t size = LEAST_SIZE;
    while (!is_chip(chip, end - size, size)) {
        size *= 2;
        if (size > MOST_SIZE)
            return 1;
    }
    if (chip->driver.block == 0 || sector_size % chip->driver.block != 0)
        return 1;
    uint32_t sectors = size / sector_size < MOST_SECTORS ? size / sector_size : MOST_SECTORS;
    chip->driver = (pgfs_driver){chip,    chip_read, chip_program,       chip_erase, NULL, sector_size,
                                 sectors, chip->driver.block, buffer, buffer_len};
    unlock(chip, sectors * sector_size);
    return 0;
}
