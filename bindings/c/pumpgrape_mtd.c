// A volume on a NOR flash behind Linux's /dev/mtdN, from the command line. docs/C.md has the commands.
#include <stdio.h>
#include <stdlib.h>
#include <string.h>
#include <unistd.h>

#include "on_mtd.h"

static const char HELP[] =
    "pumpgrape-mtd [-s SECTOR_SIZE] [-n SECTORS] DEVICE COMMAND ..\n"
    "\n"
    "  format         erases the volume's sectors: an empty volume\n"
    "  ls [PATH]      the names of a directory: d NAME, or f SIZE NAME\n"
    "  cat PATH       the bytes of a file\n"
    "  put PATH       standard input into a file, instead of one that stands there\n"
    "  mkdir PATH, rm PATH, mv PATH PATH\n"
    "  df             how full it is\n"
    "  check          whether there is a volume, and whether it was unmounted\n"
    "  clean          cleans the oldest sector, where that is worth it\n"
    "\n"
    "The volume stands at the begin of the chip. A sector is a block of the chip or several, 1 to 16 KiB; where -s or\n"
    "-n were said to format, they have to be said again each time.\n"
    "\n"
    "Status: 0 once it is done; 1 where it is refused or fails; 2 after a wrong call.\n";

// Where a put is written before it takes its place, and the most bytes that a file has.
enum { NEW_SIZE = 256, FILE_MAX = 1 << 20, RECORD = 64 };
#define NEW_NAME ".put.new"

static on_mtd chip;

static int told(const char *what, const char *why) {
    fprintf(stderr, "pumpgrape-mtd: %s: %s\n", what, why);
    return 1;
}

// Tells of a code that isn't PG_DONE; the status.
static int told_code(const char *what, uint32_t code) {
    char text[80] = "";
    if (code == PG_DONE)
        return 0;
    if (code == PG_DEVICE && chip.why[0] != 0)
        return told(what, chip.why);
    text[pg_text(code, text, sizeof text - 1)] = 0;
    return told(what, text);
}

static int told_mount(const char *path, const pgfs *fs, uint32_t code) {
    if (code == PG_BAD_RECORD)
        fprintf(stderr, "pumpgrape-mtd: %s: no volume: the record at byte %u of sector %u is bad\n", path,
                fs->refusal.place, fs->refusal.sector);
    return code == PG_BAD_RECORD ? 1 : told_code(path, code);
}

static bool print_entry(void *context, const char *name, const pg_sight *sight) {
    (void)context;
    if (sight->directory)
        printf("d %s\n", name);
    else
        printf("f %u %s\n", sight->size, name);
    return true;
}

static int run_ls(pgfs *fs, char **words) {
    const char *path = words[0] ? words[0] : "/", *last = strrchr(path, '/');
    pg_sight sight;
    uint32_t code = pgfs_stat(fs, path, &sight);
    if (code == PG_DONE && !sight.directory)
        print_entry(NULL, last + 1, &sight);
    return told_code(path, code == PG_DONE ? pgfs_list(fs, path, print_entry, NULL) : code);
}

static int run_cat(pgfs *fs, char **words) {
    uint8_t bytes[4096];
    size_t count = 0;
    uint32_t at = 0, code;
    while ((code = pgfs_read(fs, words[0], at, bytes, sizeof bytes, &count)) == PG_DONE && count > 0) {
        fwrite(bytes, 1, count, stdout);
        at += (uint32_t)count;
    }
    return told_code(words[0], code);
}

// Whether a put of so many bytes has room beside what is there, and a removal after it.
static uint32_t has_room(pgfs *fs, size_t len) {
    pg_usage usage;
    pg_longest longest;
    uint32_t code = pgfs_usage(fs, &usage);
    code = code == PG_DONE ? pg_longest_of(&fs->volume, &longest) : code;
    if (code != PG_DONE)
        return code;
    uint64_t records = len / longest.write + 4, weight = usage.weight + len + records * (RECORD + 4);
    return weight < usage.sure ? PG_DONE : PG_NO_SPACE;
}

static uint32_t write_new(pgfs *fs, const char *path, const uint8_t *bytes, size_t len) {
    size_t written;
    uint32_t code = pgfs_create(fs, path);
    if (code != PG_DONE)
        return code;
    code = pgfs_write(fs, path, 0, bytes, len, &written);
    if (code != PG_DONE)
        pgfs_remove(fs, path);
    return code;
}

// The file is whole under another name before the one that stands there is removed.
static uint32_t replace(pgfs *fs, const char *path, const uint8_t *bytes, size_t len) {
    char new[NEW_SIZE];
    pg_sight sight;
    int folder = (int)(strrchr(path, '/') - path);
    snprintf(new, sizeof new, "%.*s/" NEW_NAME, folder, path);
    uint32_t there = pgfs_stat(fs, path, &sight);
    if (there == PG_DONE && sight.directory)
        return PG_IS_DIRECTORY;
    if (there != PG_DONE && there != PG_NOT_FOUND)
        return there;
    uint32_t code = has_room(fs, len);
    code = code == PG_DONE ? write_new(fs, new, bytes, len) : code;
    if (code == PG_DONE && there == PG_DONE)
        code = pgfs_remove(fs, path);
    return code == PG_DONE ? pgfs_rename(fs, new, path) : code;
}

static int run_put(pgfs *fs, char **words) {
    static uint8_t bytes[FILE_MAX + 1];
    size_t len = fread(bytes, 1, sizeof bytes, stdin);
    if (ferror(stdin))
        return told("standard input", "it can't be read");
    if (strchr(words[0], '/') == NULL)
        return told_code(words[0], PG_PATH_NO_SLASH);
    return told_code(words[0], len > FILE_MAX ? (uint32_t)PG_FILE_LONG : replace(fs, words[0], bytes, len));
}

static int run_mkdir(pgfs *fs, char **words) { return told_code(words[0], pgfs_mkdir(fs, words[0])); }

static int run_rm(pgfs *fs, char **words) { return told_code(words[0], pgfs_remove(fs, words[0])); }

static int run_mv(pgfs *fs, char **words) { return told_code(words[0], pgfs_rename(fs, words[0], words[1])); }

static int run_df(pgfs *fs, char **words) {
    (void)words;
    pg_usage usage;
    uint32_t code = pgfs_usage(fs, &usage);
    if (code == PG_DONE)
        printf("sectors %u of %u bytes, %u erased\nlive %llu bytes in records, room is sure below %llu\n",
               usage.sectors, usage.sector_size, usage.erased, (unsigned long long)usage.weight,
               (unsigned long long)usage.sure);
    return told_code("df", code);
}

static int run_check(pgfs *fs, char **words) {
    (void)words;
    bool clean = false;
    pg_usage usage;
    uint32_t code = pg_is_clean(&fs->volume, &clean);
    code = code == PG_DONE ? pgfs_usage(fs, &usage) : code;
    if (code != PG_DONE)
        return told_code("check", code);
    printf("volume %s, %u records\n", clean ? "clean" : "unclean", usage.records);
    if (pg_calls_left(&fs->volume) > 0)
        puts("an erase was cut off; the next command that changes the volume ends it");
    return 0;
}

static int run_clean(pgfs *fs, char **words) {
    (void)words;
    uint32_t code = pgfs_clean(fs);
    puts(code == PG_NOTHING ? "it isn't worth it" : "a sector was cleaned");
    return told_code("clean", code == PG_NOTHING ? (uint32_t)PG_DONE : code);
}

static const struct command {
    const char *name;
    int least, most; // words after it
    bool looks;      // it changes nothing
    int (*run)(pgfs *fs, char **words);
} COMMANDS[] = {
    {"format", 0, 0, false, NULL},      {"ls", 0, 1, true, run_ls},    {"cat", 1, 1, true, run_cat},
    {"put", 1, 1, false, run_put},      {"mkdir", 1, 1, false, run_mkdir}, {"rm", 1, 1, false, run_rm},
    {"mv", 2, 2, false, run_mv},        {"df", 0, 0, true, run_df},    {"check", 0, 0, true, run_check},
    {"clean", 0, 0, false, run_clean},
};

static const struct command *command_of(int count, char **words) {
    for (size_t at = 0; count > 1 && at < sizeof COMMANDS / sizeof *COMMANDS; at++) {
        const struct command *command = &COMMANDS[at];
        if (strcmp(command->name, words[1]) == 0 && count - 2 >= command->least && count - 2 <= command->most)
            return command;
    }
    return NULL;
}

static int run(const struct command *command, char **words) {
    pgfs fs;
    if (command->run == NULL)
        return told_code(words[0], pgfs_format(&chip.driver));
    uint32_t code = command->looks ? pgfs_open(&fs, &chip.driver) : pgfs_mount(&fs, &chip.driver);
    if (code != PG_DONE)
        return told_mount(words[0], &fs, code);
    int status = command->run(&fs, words + 2);
    if (command->looks)
        pgfs_close(&fs);
    else
        status |= told_code(words[0], pgfs_unmount(&fs));
    return fflush(stdout) == 0 && !ferror(stdout) ? status : told("standard output", "it can't be written");
}

int main(int count, char **words) {
    uint32_t sector_size = 0, sectors = 0;
    for (int letter; (letter = getopt(count, words, "+s:n:h")) != -1;) {
        if (letter == 's')
            sector_size = (uint32_t)strtoul(optarg, NULL, 10);
        else if (letter == 'n')
            sectors = (uint32_t)strtoul(optarg, NULL, 10);
        else
            return fputs(HELP, letter == 'h' ? stdout : stderr), letter == 'h' ? 0 : 2;
    }
    count -= optind, words += optind;
    const struct command *command = command_of(count, words);
    if (command == NULL)
        return fputs(HELP, stderr), 2;
    if (on_mtd_open(&chip, words[0], command->looks, sector_size, sectors) != 0)
        return told(words[0], chip.why);
    int status = run(command, words);
    on_mtd_close(&chip);
    return status;
}
