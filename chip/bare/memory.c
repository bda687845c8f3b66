// The three functions that the library wants of a C library.
#include <stddef.h>
#include <stdint.h>

void *memcpy(void *to, const void *from, size_t len) {
    void *at = to;
    __asm__ volatile("rep movsb" : "+D"(at), "+S"(from), "+c"(len) : : "memory");
    return to;
}

void *memset(void *to, int byte, size_t len) {
    void *at = to;
    __asm__ volatile("rep stosb" : "+D"(at), "+c"(len) : "a"(byte) : "memory");
    return to;
}

void *memmove(void *to, const void *from, size_t len) {
    if ((uintptr_t)to - (uintptr_t)from >= len)
        return memcpy(to, from, len);
    for (size_t at = len; at > 0; at--)
        ((volatile uint8_t *)to)[at - 1] = ((const uint8_t *)from)[at - 1];
    return to;
}
