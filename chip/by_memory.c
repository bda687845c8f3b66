// In place of by_chip.c: a volume that answers at once, from memory, to tell what a call costs by FUSE alone. It has
// one directory, and a name is a letter and a number.
#include <errno.h>
#include <stdlib.h>
#include <string.h>

#include "volume.h"

enum { FILES = 1000, LETTERS = 26, LONGEST = 256 << 10 };

static struct file {
    int there;
    uint64_t size;
    char *bytes;
} files[LETTERS][FILES];

// Above all numbers of a letter's files.
static unsigned long ends[LETTERS];

// The file of a path; NULL for the directory and for all else.
static struct file *at(const char *path) {
    if (path[0] != '/' || path[1] < 'a' || path[1] > 'z')
        return NULL;
    return &files[path[1] - 'a'][strtoul(path + 2, NULL, 10) % FILES];
}

static struct file *there(const char *path) {
    struct file *file = at(path);
    return file != NULL && file->there ? file : NULL;
}

static void set_end(const char *path) {
    unsigned long *end = &ends[path[1] - 'a'], number = strtoul(path + 2, NULL, 10) % FILES;
    *end = number < *end ? *end : number + 1;
}

static int look(const char *path, struct seen *seen) {
    const struct file *file = there(path);
    *seen = (struct seen){file == NULL, file == NULL ? 0 : file->size};
    return file != NULL || strcmp(path, "/") == 0 ? 0 : -ENOENT;
}

static int list(const char *path, each_name each, void *context) {
    (void)path;
    for (int letter = 0; letter < LETTERS; letter++)
        for (unsigned long number = 0; number < ends[letter]; number++) {
            const struct file *file = &files[letter][number];
            struct seen seen = {0, file->size};
            char name[] = "a00000";
            name[0] = (char)('a' + letter);
            for (unsigned long rest = number, digit = 5; rest > 0; rest /= 10, digit--)
                name[digit] = (char)('0' + rest % 10);
            if (file->there && each(context, name, &seen) != 0)
                return -ENOMEM;
        }
    return 0;
}

static int read_bytes(const char *path, char *bytes, size_t size, uint32_t offset) {
    const struct file *file = there(path);
    if (file == NULL)
        return -ENOENT;
    size_t left = offset < file->size ? file->size - offset : 0, count = left < size ? left : size;
    memcpy(bytes, file->bytes + offset, count);
    return (int)count;
}

static int write_bytes(const char *path, const char *bytes, size_t size, uint32_t offset) {
    struct file *file = there(path);
    if (file == NULL || offset + size > LONGEST)
        return file == NULL ? -ENOENT : -EFBIG;
    if (offset + size > file->size) {
        file->bytes = realloc(file->bytes, offset + size);
        file->size = offset + size;
    }
    memcpy(file->bytes + offset, bytes, size);
    return 0;
}

static int create(const char *path) {
    struct file *file = at(path);
    if (file == NULL || file->there)
        return file == NULL ? -EINVAL : -EEXIST;
    *file = (struct file){1, 0, NULL};
    set_end(path);
    return 0;
}

static int make_directory(const char *path) {
    (void)path;
    return -EPERM;
}

static int remove_path(const char *path) {
    struct file *file = there(path);
    if (file == NULL)
        return -ENOENT;
    free(file->bytes);
    *file = (struct file){0, 0, NULL};
    return 0;
}

static int truncate_to(const char *path, uint32_t size) {
    struct file *file = there(path);
    if (file != NULL && size < file->size)
        file->size = size;
    return file == NULL ? -ENOENT : 0;
}

static int rename_free(const char *from, const char *to) {
    struct file *old = there(from), *new = at(to);
    if (old == NULL || new == NULL || new->there)
        return old == NULL ? -ENOENT : -EEXIST;
    *new = *old;
    set_end(to);
    *old = (struct file){0, 0, NULL};
    return 0;
}

static int room_left(struct room *room) {
    *room = (struct room){1 << 30, 0, 1 << 30};
    return 0;
}

static int end(void) { return 0; }

int start_by_chip(const struct volume **volume, const char *image, int read_only, const char *sector_size,
                  const char *sectors) {
    static const struct volume BY_MEMORY = {look,        list,        read_bytes,  write_bytes, create, make_directory,
                                            remove_path, truncate_to, rename_free, room_left,   end};
    (void)image, (void)read_only, (void)sector_size, (void)sectors;
    limits = (struct limits){4032, 20, 8};
    *volume = &BY_MEMORY;
    return 0;
}
