// Tries bindings/c/pool.c, of 64 KiB, by made calls: blocks don't overlap, are aligned, keep their bytes, and once all
// are given back the largest one can be had again.
#include <stdbool.h>
#include <stdint.h>
#include <stdio.h>
#include <stdlib.h>
#include <string.h>

enum { BLOCKS = 400, TURNS = 2000000, LARGEST = 65536 - 64 };

struct tried {
    bool ok;
    void *block;
};
struct tried rattle_alloc(size_t size, size_t align);
struct tried rattle_realloc(void *block, size_t kept, size_t size, size_t align);
void rattle_dealloc(void *block);

static struct {
    uint8_t *block;
    size_t size;
} kept[BLOCKS];

static void need(int holds, const char *what) {
    if (!holds) {
        fprintf(stderr, "pool_try: %s\n", what);
        exit(3);
    }
}

static void look(int at) {
    for (size_t byte = 0; byte < kept[at].size; byte++)
        need(kept[at].block[byte] == (uint8_t)(at + byte), "a block has other bytes");
}

static void fill(int at) {
    need((uintptr_t)kept[at].block % 16 == 0, "a block isn't aligned");
    for (size_t byte = 0; byte < kept[at].size; byte++)
        kept[at].block[byte] = (uint8_t)(at + byte);
}

// Makes a block, or one another size; 1 where that was refused.
static int grow(int at, size_t size) {
    size_t same = size < kept[at].size ? size : kept[at].size;
    struct tried got = kept[at].block ? rattle_realloc(kept[at].block, same, size, 16) : rattle_alloc(size, 16);
    if (!got.ok)
        return look(at), 1;
    kept[at].block = got.block;
    kept[at].size = same;
    look(at);
    kept[at].size = size;
    fill(at);
    return 0;
}

static void drop(int at) {
    look(at);
    if (kept[at].block)
        rattle_dealloc(kept[at].block);
    kept[at].block = NULL;
    kept[at].size = 0;
}

int main(void) {
    unsigned long refused = 0;
    srand(1);
    for (int turn = 0; turn < TURNS; turn++) {
        int at = rand() % BLOCKS, size = rand() % 8 ? rand() % 256 : rand() % 8000;
        if (rand() % 3 == 0)
            drop(at);
        else
            refused += (unsigned long)grow(at, (size_t)size);
    }
    need(refused > 0, "the pool was never full");
    for (int at = 0; at < BLOCKS; at++)
        drop(at);
    struct tried all = rattle_alloc(LARGEST, 16), more = rattle_alloc(64, 16), most = rattle_alloc(SIZE_MAX, 16);
    need(all.ok && !more.ok && !most.ok, "what is given back isn't whole again");
    printf("right %lu refused\n", refused);
    return 0;
}
