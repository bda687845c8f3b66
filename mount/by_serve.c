#include <errno.h>
#include <stdio.h>
#include <stdlib.h>
#include <string.h>

#include "served.h"
#include "volume.h"

static const struct counted NOTHING = {NULL, 0};

static struct counted text(const char *bytes) { return (struct counted){bytes, strlen(bytes)}; }

// Asks for something at one path: a verb, and the rest of the line after the path's count.
static int ask(struct answer *answer, const char *verb, const char *path, const char *rest) {
    return served_ask(answer, text(path), NOTHING, "%s %zu%s\n", verb, strlen(path), rest);
}

static int change(const char *verb, const char *path) {
    struct answer answer;
    return ask(&answer, verb, path, "");
}

static int look(const char *path, struct seen *seen) {
    struct answer answer;
    int error = ask(&answer, "stat", path, "");
    *seen = (struct seen){answer.letter == 'd', answer.numbers[0]};
    return error;
}

// Hands on the names of lines `d NAME` and `f SIZE NAME`, each ended by a line feed.
static int hand_on(char *lines, each_name each, void *context) {
    int error = 0;
    for (char *end; error == 0 && (end = strchr(lines, '\n')) != NULL; lines = end + 1) {
        *end = '\0';
        const char *name = strrchr(lines, ' ');
        struct seen seen = {lines[0] == 'd', lines[0] == 'd' ? 0 : strtoull(lines + 1, NULL, 10)};
        if (name != NULL)
            error = each(context, name + 1, &seen);
    }
    return error;
}

static int list(const char *path, each_name each, void *context) {
    struct answer answer;
    int error = ask(&answer, "list", path, "");
    if (error != 0)
        return error;
    size_t size = answer.numbers[1];
    char *lines = malloc(size + 1);
    error = served_take(lines, size);
    if (lines != NULL && error == 0) {
        lines[size] = '\0';
        error = hand_on(lines, each, context);
    }
    error = lines == NULL && error == 0 ? -ENOMEM : error;
    free(lines);
    return error;
}

static int read_bytes(const char *path, char *bytes, size_t size, uint32_t offset) {
    struct answer answer;
    char rest[64];
    snprintf(rest, sizeof rest, " %u %zu", offset, size);
    int error = ask(&answer, "read", path, rest);
    if (error != 0)
        return error;
    size_t count = answer.numbers[0];
    if (count > size)
        return served_take(NULL, count), -EIO;
    error = served_take(bytes, count);
    return error != 0 ? error : (int)count;
}

static int write_bytes(const char *path, const char *bytes, size_t size, uint32_t offset) {
    struct answer answer;
    return served_ask(&answer, text(path), (struct counted){bytes, size}, "write %zu %u %zu\n", strlen(path), offset,
                      size);
}

static int create(const char *path) { return change("create", path); }

static int make_directory(const char *path) { return change("mkdir", path); }

static int remove_path(const char *path) { return change("remove", path); }

static int truncate_to(const char *path, uint32_t size) {
    struct answer answer;
    char rest[32];
    snprintf(rest, sizeof rest, " %u", size);
    return ask(&answer, "truncate", path, rest);
}

// A directory stays in its directory.
static int rename_free(const char *from, const char *to) {
    struct answer answer;
    int error = served_ask(&answer, text(from), text(to), "rename %zu %zu\n", strlen(from), strlen(to));
    return error == -EISDIR ? -EXDEV : error;
}

static int room_left(struct room *room) {
    struct answer answer;
    int error = served_ask(&answer, NOTHING, NOTHING, "room\n");
    *room = (struct room){answer.numbers[0] * answer.numbers[1], answer.numbers[3], answer.numbers[4]};
    return error;
}

static void tell_lost(void) {
    char said[1024], why[1280];
    served_said(said, sizeof said);
    snprintf(why, sizeof why, "jffs_volume serve has ended; every call fails from now on%s%s", *said ? ": " : "", said);
    if (volume_lost != NULL)
        volume_lost(why);
}

static int end(void) {
    served_lost = NULL;
    return served_end();
}

int start_by_serve(const struct volume **volume, const char *program, const char *image, const char *sector_size) {
    static const struct volume BY_SERVE = {look,        list,        read_bytes,  write_bytes, create, make_directory,
                                           remove_path, truncate_to, rename_free, room_left,   end};
    struct answer answer;
    int status = served_start(program, image, sector_size, &answer);
    if (status != 0)
        return status;
    served_lost = tell_lost;
    limits = (struct limits){answer.numbers[0], answer.numbers[2], answer.numbers[3]};
    *volume = &BY_SERVE;
    return 0;
}
