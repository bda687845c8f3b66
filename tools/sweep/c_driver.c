// Plays a list of requests on a volume in memory by the library for C, and carries out its calls of the device:
//     c_driver SECTORS SECTOR_SIZE IMAGE [STOP HOW] < LINES
// IMAGE is made of erased bytes if it isn't there, and holds the medium at the end. With STOP the call of that
// number, from 1, is not carried out but HOW much of it: none, half or all; of an erase also zeros, where the chip has
// cleared the sector, or noise with a closed gate; then the call is said to have failed. Calls that opening leaves are
// carried out first, and count. Each line is answered by the name of its code; at the end stands how many calls there
// were, how many lines were answered, and the numbers of the calls that erase.
#include <stdio.h>
#include <stdlib.h>
#include <string.h>

#include "pumpgrape.h"

#define LINE_MAX (1 << 20)
#define GATE 7 // where a record's gate stands

static uint8_t *medium;
static uint32_t sector_size;
static unsigned long calls, stop_at, erases[1000], erase_count;
static const char *how = "none";

static void need(int holds, const char *what) {
    if (!holds) {
        fprintf(stderr, "c_driver: %s\n", what);
        exit(3);
    }
}

static const char *name_of(uint32_t code) {
    static char text[32];
    size_t length = pg_name(code, text, sizeof text - 1);
    need(length > 0, "a code without a name");
    text[length] = 0;
    return text;
}

static void apply(const pg_call *call, const uint8_t *bytes, uint32_t length) {
    for (uint32_t at = 0; at < length; at++)
        medium[call->at + at] = call->erase ? 0xff : medium[call->at + at] & bytes[at];
}

// What a call leaves that was cut off.
static void apply_cut(const pg_call *call, const uint8_t *bytes) {
    int zeros = strcmp(how, "zeros") == 0, noise = strcmp(how, "noise") == 0;
    if (!zeros && !noise) {
        apply(call, bytes, strcmp(how, "none") == 0 ? 0 : strcmp(how, "half") == 0 ? call->len / 2 : call->len);
        return;
    }
    need(call->erase, "only an erase leaves zeros or noise");
    for (uint32_t at = 0; at < call->len; at++)
        medium[call->at + at] = zeros || at == GATE ? 0 : (uint8_t)rand();
}

// Whether the next call was carried out; 0 where carrying out stops here.
static int carry_out_one(pg_volume *volume, const pg_call *call, const uint8_t *bytes) {
    calls++;
    if (call->erase && erase_count < sizeof erases / sizeof *erases)
        erases[erase_count++] = calls;
    if (calls != stop_at) {
        apply(call, bytes, call->len);
        need(pg_carried_out(volume) == PG_DONE, "pg_carried_out");
        return 1;
    }
    apply_cut(call, bytes);
    need(pg_call_failed(volume) == PG_DONE, "pg_call_failed");
    return 0;
}

static int carry_out(pg_volume *volume) {
    uint8_t *bytes = malloc(sector_size / 4);
    need(bytes != NULL, "no memory");
    pg_call call;
    uint32_t code;
    int whole = 1;
    while (whole && (code = pg_next_call(volume, &call, bytes, sector_size / 4)) == PG_DONE) {
        need(pg_create(volume, "/now", 4) == PG_CALLS_LEFT, "a change while calls are left");
        whole = carry_out_one(volume, &call, bytes);
    }
    free(bytes);
    return whole;
}

static size_t unhex(const char *text, uint8_t *bytes) {
    size_t length = strcmp(text, "-") == 0 ? 0 : strlen(text) / 2;
    for (size_t at = 0; at < length; at++) {
        unsigned byte;
        need(sscanf(text + 2 * at, "%2x", &byte) == 1, "no hex");
        bytes[at] = (uint8_t)byte;
    }
    return length;
}

static uint32_t write_words(pg_volume *volume, char **words, int count) {
    uint8_t *bytes = malloc(LINE_MAX);
    need(bytes != NULL, "no memory");
    size_t length;
    if (count == 5) {
        length = strtoul(words[3], NULL, 10);
        memset(bytes, (int)strtoul(words[4], NULL, 16), length);
    } else {
        length = unhex(words[3], bytes);
    }
    uint32_t offset = (uint32_t)strtoul(words[2], NULL, 10);
    uint32_t code = pg_write(volume, words[1], strlen(words[1]), offset, bytes, length);
    free(bytes);
    return code;
}

static uint32_t ask(pg_volume *volume, char **words, int count) {
    const char *verb = words[0], *path = count > 1 ? words[1] : "";
    size_t length = strlen(path);
    if (strcmp(verb, "create") == 0)
        return pg_create(volume, path, length);
    if (strcmp(verb, "mkdir") == 0)
        return pg_mkdir(volume, path, length);
    if (strcmp(verb, "remove") == 0)
        return pg_remove(volume, path, length);
    if (strcmp(verb, "rename") == 0)
        return pg_rename(volume, path, length, words[2], strlen(words[2]));
    if (strcmp(verb, "truncate") == 0)
        return pg_truncate(volume, path, length, (uint32_t)strtoul(words[2], NULL, 10));
    if (strcmp(verb, "write") == 0 || strcmp(verb, "fill") == 0)
        return write_words(volume, words, count);
    if (strcmp(verb, "clean_oldest") == 0)
        return pg_clean(volume);
    if (strcmp(verb, "erase_dead") == 0)
        return pg_erase_dead(volume);
    need(strcmp(verb, "unmount") == 0, "no such line");
    return pg_unmount(volume);
}

static void refuse_all(pg_volume *volume) {
    pg_sight sight;
    pg_call call;
    uint8_t byte;
    need(pg_create(volume, "/a", 2) == PG_FAILED, "a change after a failure");
    need(pg_look(volume, "/", 1, &sight) == PG_FAILED, "a look after a failure");
    need(pg_next_call(volume, &call, &byte, 1) == PG_FAILED, "a call after a failure");
    need(pg_carried_out(volume) == PG_FAILED && pg_call_failed(volume) == PG_FAILED, "carried out after a failure");
    need(pg_calls_left(volume) == 0, "calls are left after a failure");
}

static unsigned long play(pg_volume *volume) {
    if (!carry_out(volume)) {
        refuse_all(volume);
        return 0;
    }
    char *line = malloc(LINE_MAX), *words[6];
    need(line != NULL, "no memory");
    unsigned long answered = 0;
    while (fgets(line, LINE_MAX, stdin)) {
        int count = 0;
        for (char *word = strtok(line, " \n"); word && count < 6; word = strtok(NULL, " \n"))
            words[count++] = word;
        if (count == 0)
            continue;
        puts(name_of(ask(volume, words, count)));
        answered++;
        if (!carry_out(volume)) {
            refuse_all(volume);
            break;
        }
    }
    free(line);
    return answered;
}

static void store(const char *path, size_t length) {
    FILE *file = fopen(path, "wb");
    need(file && fwrite(medium, 1, length, file) == length && fclose(file) == 0, "the image isn't written");
}

int main(int argc, char **argv) {
    need(argc == 4 || argc == 6, "c_driver SECTORS SECTOR_SIZE IMAGE [STOP HOW]");
    sector_size = (uint32_t)strtoul(argv[2], NULL, 10);
    size_t length = strtoul(argv[1], NULL, 10) * sector_size;
    if (argc == 6) {
        stop_at = strtoul(argv[4], NULL, 10);
        how = argv[5];
        srand((unsigned)stop_at);
    }
    need((medium = malloc(length)) != NULL, "no memory");
    memset(medium, 0xff, length);
    FILE *file = fopen(argv[3], "rb");
    if (file)
        need(fread(medium, 1, length, file) == length && fclose(file) == 0, "the image isn't read");
    pg_volume volume;
    pg_refusal refusal;
    uint32_t code = pg_open(medium, length, sector_size, &volume, &refusal);
    if (code != PG_DONE) {
        printf("refused %s\n", name_of(code));
        free(medium);
        return 2;
    }
    unsigned long answered = play(&volume);
    pg_close(volume);
    store(argv[3], length);
    free(medium);
    printf("calls %lu answered %lu erases", calls, answered);
    for (unsigned long at = 0; at < erase_count; at++)
        printf(" %lu", erases[at]);
    puts("");
    return 0;
}
