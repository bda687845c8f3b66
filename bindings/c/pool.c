// The memory of the library from one array of POOL_BYTES, for firmware without malloc: in place of heap.c. Blocks that
// are given back are merged with the free ones beside them, and used again.
#include <stdbool.h>
#include <stddef.h>
#include <stdint.h>
#include <string.h>

#ifndef POOL_BYTES
#define POOL_BYTES (256 * 1024)
#endif

// The pool is units of 16 bytes. A block is some units in a row, of which the first begins with the block's head. What
// is handed out begins after the head, at a multiple of 16.
typedef struct unit {
    uint32_t before;      // units of the block before this one
    uint32_t units : 31;  // of this block
    uint32_t used : 1;
    uint32_t next, last;  // of a free block: those after and before it in the ring of free ones
} unit;

enum { UNITS = POOL_BYTES / sizeof(unit) - 1, HEAD = offsetof(unit, next), FIRST = 1, END = UNITS - 1 };

// Unit 0 is where the ring of free blocks begins, and the last one a block that is always used.
static _Alignas(16) struct {
    uint32_t aligning[HEAD / sizeof(uint32_t)];
    unit units[UNITS];
} pool;

struct tried {
    bool ok;
    void *block;
};

static unit *const all = pool.units;

static void enter(uint32_t at) {
    all[at].used = 0;
    all[at].last = 0;
    all[at].next = all[0].next;
    all[all[0].next].last = at;
    all[0].next = at;
}

static void leave(uint32_t at) {
    all[all[at].last].next = all[at].next;
    all[all[at].next].last = all[at].last;
}

// Makes a block of so many units there; the block after it hears of it.
static void measure(uint32_t at, uint32_t units) {
    all[at].units = units & INT32_MAX;
    all[at + units].before = units;
}

static void begin(void) {
    all[0] = (unit){.units = 1, .used = 1};
    all[END] = (unit){.units = 1, .used = 1};
    measure(FIRST, END - FIRST);
    enter(FIRST);
}

// The units of a block for so many bytes; more than there are where it can't be.
static uint32_t units_for(size_t bytes) {
    return bytes < POOL_BYTES ? (uint32_t)((HEAD + bytes + sizeof(unit) - 1) / sizeof(unit)) : UNITS;
}

// Gives back a block, together with the free ones beside it.
static void give_back(uint32_t at) {
    uint32_t units = all[at].units, right = at + units, left = at - all[at].before;
    if (!all[right].used) {
        leave(right);
        units += all[right].units;
    }
    if (at != FIRST && !all[left].used) {
        leave(left);
        units += all[left].units;
        at = left;
    }
    measure(at, units);
    enter(at);
}

// Leaves the block so many of its units; the rest is given back.
static void cut(uint32_t at, uint32_t units) {
    uint32_t rest = all[at].units - units;
    if (rest == 0)
        return;
    measure(at, units);
    all[at + units].used = 1;
    measure(at + units, rest);
    give_back(at + units);
}

struct tried rattle_alloc(size_t size, size_t align) {
    (void)align;
    uint32_t wanted = units_for(size);
    if (all[0].units == 0)
        begin();
    uint32_t at = all[0].next;
    while (at != 0 && all[at].units < wanted)
        at = all[at].next;
    if (at == 0)
        return (struct tried){false, &pool};
    leave(at);
    all[at].used = 1;
    cut(at, wanted);
    return (struct tried){true, &all[at].next};
}

static uint32_t place_of(const void *block) {
    return (uint32_t)(((const uint8_t *)block - (const uint8_t *)&all[0].next) / sizeof(unit));
}

void rattle_dealloc(void *block) { give_back(place_of(block)); }

// Takes the free block after it in, if that makes it large enough.
static void widen(uint32_t at, uint32_t wanted) {
    uint32_t right = at + all[at].units, together = all[at].units + all[right].units;
    if (all[right].used || together < wanted)
        return;
    leave(right);
    measure(at, together);
}

struct tried rattle_realloc(void *block, size_t kept, size_t size, size_t align) {
    (void)kept;
    uint32_t at = place_of(block), wanted = units_for(size);
    if (all[at].units < wanted)
        widen(at, wanted);
    if (all[at].units >= wanted) {
        cut(at, wanted);
        return (struct tried){true, block};
    }
    struct tried moved = rattle_alloc(size, align);
    if (moved.ok) {
        memcpy(moved.block, block, all[at].units * sizeof(unit) - HEAD);
        rattle_dealloc(block);
    }
    return moved;
}
