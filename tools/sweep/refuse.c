// Put before the C library by LD_PRELOAD: call number REFUSE_AT of an allocation (from 1; 0 for none) answers null, and
// with REFUSE_ON each later one too.
// The file REFUSE_SEEN is made when that call came; the number of all calls is written to REFUSE_COUNT at the end.
#define _GNU_SOURCE
#include <errno.h>
#include <fcntl.h>
#include <stdatomic.h>
#include <stdio.h>
#include <stdlib.h>
#include <unistd.h>

// The C library's own names: a look-up by dlsym would allocate itself.
extern void *__libc_malloc(size_t);
extern void *__libc_calloc(size_t, size_t);
extern void *__libc_realloc(void *, size_t);
extern void *__libc_memalign(size_t, size_t);

static atomic_long calls;
static long refuse_at;
static int refuse_on;

__attribute__((constructor)) static void begin(void) {
    const char *at = getenv("REFUSE_AT");
    refuse_at = at ? atol(at) : 0;
    refuse_on = getenv("REFUSE_ON") != NULL;
    atomic_store(&calls, 0);
}

static int refused(void) {
    long call = atomic_fetch_add(&calls, 1) + 1;
    if (refuse_at == 0 || call < refuse_at || (call > refuse_at && !refuse_on))
        return 0;
    const char *seen = call == refuse_at ? getenv("REFUSE_SEEN") : NULL;
    int file = seen ? open(seen, O_CREAT | O_WRONLY, 0600) : -1;
    if (file >= 0)
        close(file);
    errno = ENOMEM;
    return 1;
}

__attribute__((destructor)) static void end(void) {
    const char *path = getenv("REFUSE_COUNT");
    int file = path ? open(path, O_CREAT | O_WRONLY | O_TRUNC, 0600) : -1;
    if (file < 0)
        return;
    // Not by dprintf, which may allocate.
    char text[24];
    int length = snprintf(text, sizeof text, "%ld\n", atomic_load(&calls));
    if (write(file, text, length) != length)
        abort();
    close(file);
}

void *malloc(size_t size) { return refused() ? NULL : __libc_malloc(size); }

void *calloc(size_t count, size_t size) { return refused() ? NULL : __libc_calloc(count, size); }

void *realloc(void *old, size_t size) { return refused() ? NULL : __libc_realloc(old, size); }

void *memalign(size_t align, size_t size) { return refused() ? NULL : __libc_memalign(align, size); }

void *aligned_alloc(size_t align, size_t size) { return refused() ? NULL : __libc_memalign(align, size); }

int posix_memalign(void **place, size_t align, size_t size) {
    void *block = refused() ? NULL : __libc_memalign(align, size);
    if (block == NULL)
        return ENOMEM;
    *place = block;
    return 0;
}
