// Changes of 24 files, each one request, told before (A n) and after (D n), so that the power can be cut between them;
// and after a cut the check that the files are those of before or after the change in hand.
//     torture [-s SECTOR_SIZE] [-c PIECE] [-z] [-w MICROSECONDS] TARGET SEED DONE LIMIT
// DONE changes were told as done: it looks, says VERIFY, and goes on up to LIMIT. TARGET is a chip's device file, or a
// directory. So that a cut finds more to cut, programs go to the chip in pieces of PIECE bytes, with -z a block is
// cleared before its erase, as many chips do inside, and with -w each erase of a block waits first. It is linked with
// on_mtd.c, with pwrite and ioctl wrapped.
#define _GNU_SOURCE
#include <stdio.h>
#include <stdlib.h>
#include <string.h>
#include <sys/ioctl.h>
#include <sys/stat.h>
#include <termios.h>
#include <unistd.h>

#include <mtd/mtd-user.h>

#include "torture.h"

static struct slot model[SLOTS];
static const struct target *target;
static size_t piece = SIZE_MAX;
static int clears;
static useconds_t waits;

ssize_t __real_pwrite(int file, const void *bytes, size_t len, off_t at);
int __real_ioctl(int file, unsigned long request, void *argument);

ssize_t __wrap_pwrite(int file, const void *bytes, size_t len, off_t at) {
    return __real_pwrite(file, bytes, len < piece ? len : piece, at);
}

// A block that is cleared ends with its first bytes, or begins with them: by turns.
static void clear(int file, const struct erase_info_user *range) {
    static const uint8_t zeros[64];
    static int turn;
    uint32_t step = sizeof zeros, last = range->length - step;
    turn++;
    for (uint32_t at = 0; at < range->length; at += step)
        if (__real_pwrite(file, zeros, step, range->start + (turn % 2 ? at : last - at)) != (ssize_t)step)
            exit(7);
}

int __wrap_ioctl(int file, unsigned long request, void *argument) {
    if (request == MEMERASE && clears)
        clear(file, argument);
    if (request == MEMERASE && waits)
        usleep(waits);
    return __real_ioctl(file, request, argument);
}

static uint64_t mixed(uint64_t x) {
    x += 0x9e3779b97f4a7c15u;
    x = (x ^ (x >> 30)) * 0xbf58476d1ce4e5b9u;
    x = (x ^ (x >> 27)) * 0x94d049bb133111ebu;
    return x ^ (x >> 31);
}

static void draw_write(struct change *change, uint64_t drawn, uint32_t size) {
    change->verb = WRITE;
    change->at = (uint32_t)(drawn % (size + 1));
    change->len = 1 + (uint32_t)((drawn >> 30) % PIECE);
    if (change->at + change->len > LONGEST)
        change->at = LONGEST - change->len < size ? LONGEST - change->len : 0;
    for (uint32_t byte = 0; byte < change->len; byte++)
        change->bytes[byte] = (uint8_t)mixed(drawn + byte);
}

static void draw(struct change *change, uint64_t seed, uint32_t number) {
    uint64_t first = mixed(seed * 1000003u + number), second = mixed(first);
    change->slot = (int)(first % SLOTS);
    const struct slot *slot = &model[change->slot];
    unsigned how = (unsigned)((first >> 20) % 12);
    change->at = change->len = 0;
    if (!slot->there) {
        change->verb = CREATE;
    } else if (how == 0) {
        change->verb = REMOVE;
    } else if (how == 1) {
        change->verb = TRUNCATE;
        change->at = (uint32_t)(second % (slot->size + 1));
    } else if (how <= 3) {
        change->verb = RENAME;
    } else {
        draw_write(change, second, slot->size);
    }
}

// A write begins at the file's end at most, so no byte is there that wasn't written.
static void apply(const struct change *change) {
    struct slot *slot = &model[change->slot];
    switch (change->verb) {
    case CREATE:
        *slot = (struct slot){.there = true};
        break;
    case REMOVE:
        slot->there = false;
        break;
    case TRUNCATE:
        slot->size = change->at;
        break;
    case RENAME:
        slot->side = !slot->side;
        break;
    case WRITE:
        memcpy(slot->bytes + change->at, change->bytes, change->len);
        if (change->at + change->len > slot->size)
            slot->size = change->at + change->len;
    }
}

static void name_of(char to[NAME], int slot, bool side) { snprintf(to, NAME, "/%c%02d", side ? 'b' : 'a', slot); }

// Whether a name shows what the model has; counts it if it is there.
static bool shows(int slot, bool side, int *there) {
    static uint8_t got[LONGEST + 1];
    char path[NAME];
    name_of(path, slot, side);
    int found = target->look(path, got);
    if (!model[slot].there || model[slot].side != side)
        return found == -1;
    ++*there;
    return found == (int)model[slot].size && memcmp(got, model[slot].bytes, model[slot].size) == 0;
}

// Whether all names show what the model has, and no other name is there.
static bool right(void) {
    int there = 0;
    for (int slot = 0; slot < SLOTS; slot++)
        if (!shows(slot, false, &there) || !shows(slot, true, &there))
            return false;
    return target->names() == there;
}

// Says which state is there, of the one of before this change and the one of after; how many changes it has, or -1.
static int verify(uint64_t seed, uint32_t done) {
    static const char *const VERBS[] = {"create", "remove", "truncate", "rename", "write"};
    static struct change change;
    if (right())
        return printf("VERIFY before %u\n", done), (int)done;
    draw(&change, seed, done);
    apply(&change);
    bool after = right();
    printf("VERIFY %s %u %s slot %d at %u len %u\n", after ? "after" : "neither", done + 1, VERBS[change.verb],
           change.slot, change.at, change.len);
    return after ? (int)done + 1 : -1;
}

static bool say(char letter, uint32_t number) {
    char line[24];
    int length = snprintf(line, sizeof line, "%c %u\n", letter, number);
    bool said = write(1, line, (size_t)length) == length;
    tcdrain(1);
    return said;
}

static int go_on(uint64_t seed, uint32_t done, uint32_t limit) {
    static struct change change;
    for (; done < limit; done++) {
        char from[NAME], to[NAME];
        draw(&change, seed, done);
        name_of(from, change.slot, change.verb != CREATE && model[change.slot].side);
        name_of(to, change.slot, !model[change.slot].side);
        if (!say('A', done) || target->change(&change, from, to) != 0)
            return 6;
        apply(&change);
        if (!say('D', done))
            return 5;
    }
    return puts("LIMIT"), 0;
}

int main(int count, char **words) {
    uint32_t sector_size = 0;
    for (int letter; (letter = getopt(count, words, "+s:c:zw:")) != -1;) {
        if (letter == 's')
            sector_size = (uint32_t)strtoul(optarg, NULL, 10);
        else if (letter == 'c')
            piece = strtoul(optarg, NULL, 10);
        else if (letter == 'z')
            clears = 1;
        else if (letter == 'w')
            waits = (useconds_t)strtoul(optarg, NULL, 10);
        else
            return 2;
    }
    words += optind;
    if (count - optind != 4)
        return 2;
    struct stat seen;
    uint64_t seed = strtoull(words[1], NULL, 10);
    uint32_t done = (uint32_t)strtoul(words[2], NULL, 10), limit = (uint32_t)strtoul(words[3], NULL, 10);
    static struct change change;
    for (uint32_t number = 0; number < done; number++)
        draw(&change, seed, number), apply(&change);
    target = stat(words[0], &seen) == 0 && S_ISDIR(seen.st_mode) ? &on_directory : &on_chip;
    if (target->open(words[0], sector_size) != 0)
        return 3;
    int now = verify(seed, done);
    fflush(stdout);
    return now < 0 ? 4 : go_on(seed, (uint32_t)now, limit);
}
