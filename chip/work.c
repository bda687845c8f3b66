// The same work on a mounted directory and on a chip by the library, timed inside the guest, whose clock counts
// instructions: 1 ns is one.
//     work PLACE files COUNT SIZE ROUNDS    create, overwrite, read, list, rename and remove them
//     work PLACE piece BYTES PIECE          one file in pieces, and all of it read again
//     work PLACE fill SIZE                  files of this size until there is no room; they stay
//     work PLACE static COUNT SIZE          so many files, which stay
//     work PLACE over COUNT SIZE TIMES      overwrites of so many files, by turns
//     work PLACE readall                    each file that fill has left, compared
//     work PLACE mount                      nothing but the mount
//     work mount TYPE SOURCE DIRECTORY OPTIONS   times the call of the kernel
// PLACE is a directory, or a chip's device file. Lines: ROW NAME COUNT MEDIAN, in instructions.
#include <stdbool.h>
#include <stdio.h>
#include <stdlib.h>
#include <string.h>
#include <sys/mount.h>
#include <sys/stat.h>
#include <time.h>

#include "work.h"

enum { MOST_TIMES = 200000, NAME = 32, LONGEST = 1 << 20 };

static const struct place *place;
static uint64_t times[MOST_TIMES];
static size_t count;
static uint8_t bytes[LONGEST], got[LONGEST];

static uint64_t now(void) {
    struct timespec time;
    clock_gettime(CLOCK_MONOTONIC, &time);
    return (uint64_t)time.tv_sec * 1000000000u + (uint64_t)time.tv_nsec;
}

static void took(uint64_t since) {
    if (count < MOST_TIMES)
        times[count++] = now() - since;
}

static int by_size(const void *one, const void *other) {
    uint64_t a = *(const uint64_t *)one, b = *(const uint64_t *)other;
    return a < b ? -1 : a > b;
}

static void row(const char *name) {
    qsort(times, count, sizeof *times, by_size);
    printf("ROW %s %zu %llu\n", name, count, count > 0 ? (unsigned long long)times[count / 2] : 0);
    fflush(stdout);
    count = 0;
}

static void need(bool holds, const char *what) {
    if (!holds) {
        printf("FAILED %s\n", what);
        exit(1);
    }
}

static const char *name_of(char letter, long number) {
    static char names[2][NAME];
    static int turn;
    turn = !turn;
    snprintf(names[turn], NAME, "%c%05ld", letter, number);
    return names[turn];
}

static void fill_bytes(size_t size, long seed) {
    uint32_t state = (uint32_t)seed * 2654435761u + 12345u;
    for (size_t byte = 0; byte < size; byte++) {
        state = state * 1664525u + 1013904223u;
        bytes[byte] = (uint8_t)(state >> 24);
    }
}

static void write_all(long files, size_t size, long round, const char *what) {
    for (long file = 0; file < files; file++) {
        fill_bytes(size, file + round * files);
        uint64_t since = now();
        int done = round < 0 ? place->create(name_of('f', file), bytes, size)
                             : place->overwrite(name_of('f', file), bytes, size, 0);
        took(since);
        need(done == 0, what);
    }
}

static void read_all(long files, size_t size, long round) {
    for (long file = 0; file < files; file++) {
        uint64_t since = now();
        int found = place->read(name_of('f', file), got, size, 0);
        took(since);
        fill_bytes(size, file + round * files);
        need(found == (int)size && memcmp(bytes, got, size) == 0, "read");
    }
}

static void list_all(long files, const char *name, int sizes) {
    uint64_t since = now();
    int found = place->list(sizes);
    took(since);
    need(found == files, name);
    row(name);
}

static void run_files(long files, size_t size, long rounds) {
    write_all(files, size, -1, "create");
    row("create");
    for (long round = 0; round < rounds; round++)
        write_all(files, size, round, "overwrite");
    row("overwrite");
    read_all(files, size, rounds - 1);
    row("read");
    read_all(files, size, rounds - 1);
    row("read-again");
    list_all(files, "sizes", 1);
    list_all(files, "sizes-again", 1);
    list_all(files, "names", 0);
    for (long file = 0; file < files; file++) {
        uint64_t since = now();
        need(place->rename(name_of('f', file), name_of('g', file)) == 0, "rename");
        took(since);
    }
    row("rename");
    for (long file = 0; file < files; file++) {
        uint64_t since = now();
        need(place->remove(name_of('g', file)) == 0, "remove");
        took(since);
    }
    row("remove");
}

static void run_piece(size_t size, size_t piece) {
    need(place->create("big", bytes, 0) == 0, "big");
    for (size_t at = 0; at < size; at += piece) {
        fill_bytes(piece, (long)at);
        uint64_t since = now();
        need(place->overwrite("big", bytes, piece, (uint32_t)at) == 0, "piece");
        took(since);
    }
    row("piece");
    uint64_t since = now();
    need(place->read("big", got, size, 0) == (int)size, "big");
    took(since);
    row("read-big");
    need(place->remove("big") == 0, "big");
}

static void run_fill(size_t size, long most) {
    long file = 0;
    for (bool room = true; room && file < most; file += room) {
        fill_bytes(size, file);
        room = place->create(name_of('s', file), bytes, size) == 0;
    }
    printf("ROW filled %ld %zu\n", file, (size_t)file * size);
    if (most == LONGEST)
        place->remove(name_of('s', file));
}

static void run_over(long files, size_t size, long turns) {
    for (long file = 0; file < files; file++)
        place->create(name_of('h', file), bytes, 0);
    for (long turn = 0; turn < turns; turn++) {
        fill_bytes(size, turn);
        uint64_t since = now();
        need(place->overwrite(name_of('h', turn % files), bytes, size, 0) == 0, "over");
        took(since);
    }
    row("over");
}

static void run_readall(void) {
    uint64_t since = now();
    long file = 0;
    for (int found; (found = place->read(name_of('s', file), got, LONGEST, 0)) >= 0; file++) {
        fill_bytes((size_t)found, file);
        need(memcmp(bytes, got, (size_t)found) == 0, "readall");
    }
    took(since);
    printf("ROW read-files %ld 0\n", file);
    row("read-all");
}

static int run_mount(char **words) {
    uint64_t since = now();
    int failed = mount(words[1], words[2], words[0], 0, words[3]);
    took(since);
    need(failed == 0, "mount");
    row("mount");
    return 0;
}

static void run(int left, char **words) {
    const char *verb = words[0];
    long numbers[3] = {0};
    for (int at = 1; at < left && at <= 3; at++)
        numbers[at - 1] = strtol(words[at], NULL, 10);
    if (strcmp(verb, "files") == 0)
        run_files(numbers[0], (size_t)numbers[1], numbers[2]);
    else if (strcmp(verb, "piece") == 0)
        run_piece((size_t)numbers[0], (size_t)numbers[1]);
    else if (strcmp(verb, "fill") == 0)
        run_fill((size_t)numbers[0], LONGEST);
    else if (strcmp(verb, "static") == 0)
        run_fill((size_t)numbers[1], numbers[0]);
    else if (strcmp(verb, "over") == 0)
        run_over(numbers[0], (size_t)numbers[1], numbers[2]);
    else if (strcmp(verb, "readall") == 0)
        run_readall();
}

int main(int words_count, char **words) {
    struct stat seen;
    if (words_count == 6 && strcmp(words[1], "mount") == 0)
        return run_mount(words + 2);
    need(words_count >= 3 && stat(words[1], &seen) == 0, "work PLACE VERB ..");
    place = S_ISDIR(seen.st_mode) ? &in_directory : &on_chip;
    uint64_t since = now();
    need(place->open(words[1]) == 0, words[1]);
    took(since);
    if (strcmp(words[2], "mount") == 0)
        row("mount");
    count = 0;
    run(words_count - 2, words + 2);
    place->close();
    return 0;
}
