// Firmware without an operating system: keeps settings and a log on a NOR flash, and finds them again after the power
// was cut. On the serial line it says which settings it HAS at its begin, and of each change when it is asked for (A)
// and when it is done (D).
#include "cfi.h"

enum { SECTOR_SIZE = 4096, MEDIUM = 64 * SECTOR_SIZE, SETTINGS_SIZE = 96, NOTE_SIZE = 40, LOG_MOST = 1000 };

// Where the serial line is.
enum { LINE = 0x3f8 };

// The chip ends where QEMU's firmware begins, below 4 GiB.
static const uintptr_t CHIP_END = 0xfffc0000;

static uint8_t buffer[MEDIUM];
static cfi chip;
static pgfs fs;

static void out(uint16_t port, uint8_t byte) { __asm__ volatile("outb %0, %1" : : "a"(byte), "Nd"(port)); }

static uint8_t in(uint16_t port) {
    uint8_t byte;
    __asm__ volatile("inb %1, %0" : "=a"(byte) : "Nd"(port));
    return byte;
}

static void print(const char *text) {
    for (; *text != 0; text++) {
        while ((in(LINE + 5) & 0x20) == 0) {
        }
        out(LINE, (uint8_t)*text);
    }
}

static void print_line(const char *word, uint32_t number) {
    char digits[12] = "\n";
    char *at = digits + sizeof digits - 1;
    *at = 0;
    *--at = '\n';
    do {
        *--at = (char)('0' + number % 10);
        number /= 10;
    } while (number > 0);
    print(word);
    print(" ");
    print(at);
}

// The settings of this number.
static void make(uint8_t settings[SETTINGS_SIZE], uint32_t number) {
    for (int byte = 0; byte < SETTINGS_SIZE; byte++)
        settings[byte] = (uint8_t)(byte < 4 ? number >> 8 * byte : number * 7 + (uint32_t)byte);
}

// Reads the settings; their number, or 0 where there are none, or only a file for them. False where they are others.
static bool load(uint32_t *number) {
    uint8_t found[SETTINGS_SIZE], wanted[SETTINGS_SIZE];
    size_t count = 0;
    uint32_t code = pgfs_read(&fs, "/settings", 0, found, sizeof found, &count);
    *number = 0;
    if (code == PG_NOT_FOUND || (code == PG_DONE && count == 0))
        return true;
    for (int byte = 0; byte < 4; byte++)
        *number |= (uint32_t)found[byte] << 8 * byte;
    make(wanted, *number);
    for (int byte = 0; byte < SETTINGS_SIZE; byte++)
        if (code != PG_DONE || count != SETTINGS_SIZE || found[byte] != wanted[byte])
            return false;
    return true;
}

static uint32_t store(uint32_t number) {
    uint8_t settings[SETTINGS_SIZE];
    size_t written;
    make(settings, number);
    return pgfs_write(&fs, "/settings", 0, settings, sizeof settings, &written);
}

// Appends to the log; a long one becomes the old log.
static uint32_t note(void) {
    static const uint8_t words[NOTE_SIZE] = "the settings were changed once more    \n";
    pg_sight log = {0};
    size_t written;
    uint32_t code = pgfs_stat(&fs, "/log", &log);
    if (code == PG_DONE && log.size > LOG_MOST) {
        pgfs_remove(&fs, "/log.old");
        code = pgfs_rename(&fs, "/log", "/log.old");
        log.size = 0;
        code = code == PG_DONE ? pgfs_create(&fs, "/log") : code;
    }
    if (code == PG_NOT_FOUND)
        code = pgfs_create(&fs, "/log");
    return code == PG_DONE ? pgfs_write(&fs, "/log", log.size, words, sizeof words, &written) : code;
}

static uint32_t work(uint32_t number) {
    for (;;) {
        number++;
        print_line("A", number);
        uint32_t code = store(number);
        if (code != PG_DONE)
            return code;
        print_line("D", number);
        code = note();
        if (code != PG_DONE)
            return code;
        pgfs_clean(&fs);
    }
}

int main(void) {
    uint32_t number = 0;
    if (cfi_open(&chip, CHIP_END, SECTOR_SIZE, buffer, sizeof buffer) != 0)
        return print("NO CHIP\n"), 1;
    uint32_t code = pgfs_mount(&fs, &chip.driver);
    if (code != PG_DONE)
        return print_line("REFUSED", code), 1;
    if (!load(&number))
        return print("OTHER SETTINGS\n"), 1;
    print_line("HAS", number);
    code = pgfs_create(&fs, "/settings");
    if (code == PG_DONE || code == PG_NAME_TAKEN)
        code = work(number);
    print_line("FAILED", code);
    return 1;
}
