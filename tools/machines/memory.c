/*
 * The three functions that compilers call to move memory, for a machine without a library: tools/machines/run links them into
 * the WebAssembly module. It is compiled with -fno-builtin, since a compiler would otherwise make a call of memcpy of the loop
 * that is memcpy.
 */
#include <stddef.h>
#include <stdint.h>

void *memcpy(void *to, const void *from, size_t bytes);
void *memmove(void *to, const void *from, size_t bytes);
void *memset(void *to, int byte, size_t bytes);

void *memcpy(void *to, const void *from, size_t bytes)
{
    uint8_t *t = to;
    const uint8_t *f = from;
    for (size_t i = 0; i < bytes; i++) {
        t[i] = f[i];
    }
    return to;
}

void *memmove(void *to, const void *from, size_t bytes)
{
    uint8_t *t = to;
    const uint8_t *f = from;
    if ((uintptr_t)t <= (uintptr_t)f) {
        return memcpy(to, from, bytes);
    }
    for (size_t i = bytes; i > 0; i--) {
        t[i - 1] = f[i - 1];
    }
    return to;
}

void *memset(void *to, int byte, size_t bytes)
{
    uint8_t *t = to;
    for (size_t i = 0; i < bytes; i++) {
        t[i] = (uint8_t)byte;
    }
    return to;
}
