// Put before the C library by LD_PRELOAD: of the calls that make or free memory some give way to another thread, and some
// sleep for up to 200 microseconds. Which ones is drawn for each thread by itself, from DELAY_SEED and the order in which
// the threads came.
#define _GNU_SOURCE
#include <errno.h>
#include <sched.h>
#include <stdatomic.h>
#include <stdint.h>
#include <stdlib.h>
#include <time.h>

// The C library's own names: a look-up by dlsym would allocate itself.
extern void *__libc_malloc(size_t);
extern void *__libc_realloc(void *, size_t);
extern void __libc_free(void *);

static atomic_uint threads;
static uint32_t seed;
static _Thread_local uint32_t state;

__attribute__((constructor)) static void begin(void) {
    const char *given = getenv("DELAY_SEED");
    seed = given ? (uint32_t)atol(given) : 1;
}

// The thread's next random number, by xorshift.
static uint32_t draw(void) {
    if (state == 0)
        state = (seed * 2654435761u + atomic_fetch_add(&threads, 1) * 40503u) | 1;
    state ^= state << 13;
    state ^= state >> 17;
    state ^= state << 5;
    return state;
}

static void delay(void) {
    uint32_t drawn = draw();
    int kept = errno;
    if (drawn % 16 == 0)
        sched_yield();
    if (drawn % 64 == 1) {
        struct timespec time = {0, (long)(drawn / 64 % 200) * 1000};
        nanosleep(&time, NULL);
    }
    errno = kept;
}

void *malloc(size_t size) {
    delay();
    return __libc_malloc(size);
}

void *realloc(void *old, size_t size) {
    delay();
    return __libc_realloc(old, size);
}

void free(void *block) {
    delay();
    __libc_free(block);
}
