// The memory of the library: the three functions that libjffs_c.a asks for. `malloc` and `realloc` have to align a
// block to each power of two up to 16 that divides its size.
#include <stdbool.h>
#include <stddef.h>
#include <stdlib.h>

struct tried {
    bool ok;
    void *block;
};

// Where nothing was got the pointer is still one, and is never followed.
static char none;

static struct tried tried(void *block) { return (struct tried){block != NULL, block ? block : &none}; }

// A block of 0 bytes has a place of its own too.
struct tried rattle_alloc(size_t size, size_t align) { return tried(malloc(size ? size : align)); }

struct tried rattle_realloc(void *block, size_t kept, size_t size, size_t align) {
    (void)kept;
    return tried(realloc(block, size ? size : align));
}

void rattle_dealloc(void *block) { free(block); }
