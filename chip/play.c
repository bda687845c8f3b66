// Plays a list of requests on the volume of a chip, by the library for C:
//     play DEVICE SECTOR_SIZE < LINES
// Each line is answered by the name of its code.
#include <stdio.h>
#include <stdlib.h>
#include <string.h>

#include "on_mtd.h"

enum { LINE_SIZE = 1 << 16, WORDS = 6 };

static on_mtd chip;

static size_t unhex(const char *text, uint8_t *bytes) {
    size_t length = strcmp(text, "-") == 0 ? 0 : strlen(text) / 2;
    for (size_t at = 0; at < length; at++)
        sscanf(text + 2 * at, "%2hhx", &bytes[at]);
    return length;
}

// `write PATH OFFSET HEX`, or `fill PATH OFFSET LENGTH BYTE`. A record at most, so it is one change.
static uint32_t ask_write(pgfs *fs, char **words) {
    static uint8_t bytes[LINE_SIZE];
    size_t length, written;
    if (strcmp(words[0], "fill") == 0) {
        length = strtoul(words[3], NULL, 10);
        memset(bytes, (int)strtoul(words[4], NULL, 16), length);
    } else {
        length = unhex(words[3], bytes);
    }
    return pgfs_write(fs, words[1], (uint32_t)strtoul(words[2], NULL, 10), bytes, length, &written);
}

static uint32_t ask(pgfs *fs, char **words) {
    const char *verb = words[0];
    if (strcmp(verb, "create") == 0)
        return pgfs_create(fs, words[1]);
    if (strcmp(verb, "mkdir") == 0)
        return pgfs_mkdir(fs, words[1]);
    if (strcmp(verb, "remove") == 0)
        return pgfs_remove(fs, words[1]);
    if (strcmp(verb, "rename") == 0)
        return pgfs_rename(fs, words[1], words[2]);
    if (strcmp(verb, "truncate") == 0)
        return pgfs_truncate(fs, words[1], (uint32_t)strtoul(words[2], NULL, 10));
    return ask_write(fs, words);
}

static void print_code(uint32_t code) {
    char name[32];
    printf("%.*s\n", (int)pg_name(code, name, sizeof name), name);
    if (code == PG_DEVICE)
        puts(chip.why);
}

int main(int count, char **given) {
    static char line[LINE_SIZE];
    pgfs fs;
    if (count != 3 || on_mtd_open(&chip, given[1], false, (uint32_t)strtoul(given[2], NULL, 10), 0) != 0)
        return printf("%s\n", chip.why), 2;
    uint32_t code = pgfs_mount(&fs, &chip.driver);
    if (code != PG_DONE)
        return print_code(code), 3;
    while (fgets(line, sizeof line, stdin) != NULL) {
        char *words[WORDS] = {NULL};
        int at = 0;
        for (char *word = strtok(line, " \n"); word != NULL && at < WORDS; word = strtok(NULL, " \n"))
            words[at++] = word;
        print_code(ask(&fs, words));
    }
    return pgfs_unmount(&fs) == PG_DONE ? 0 : 4;
}
