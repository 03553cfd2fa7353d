/* The four functions that a C compiler takes for granted, for a target without a C library. */
#include <stddef.h>
#include <stdint.h>

void *memcpy(void *to, const void *from, size_t count);
void *memmove(void *to, const void *from, size_t count);
void *memset(void *at, int value, size_t count);
int memcmp(const void *one, const void *other, size_t count);

void *memmove(void *to, const void *from, size_t count) {
    uint8_t *into = (uint8_t *)to;
    const uint8_t *out = (const uint8_t *)from;
    if ((uintptr_t)into < (uintptr_t)out)
        for (size_t i = 0; i < count; i++)
            into[i] = out[i];
    else
        for (size_t i = count; i > 0; i--)
            into[i - 1] = out[i - 1];
    return to;
}

void *memcpy(void *to, const void *from, size_t count) {
    uint8_t *into = (uint8_t *)to;
    const uint8_t *out = (const uint8_t *)from;
    for (size_t i = 0; i < count; i++)
        into[i] = out[i];
    return to;
}

void *memset(void *at, int value, size_t count) {
    uint8_t *into = (uint8_t *)at;
    for (size_t i = 0; i < count; i++)
        into[i] = (uint8_t)value;
    return at;
}

int memcmp(const void *one, const void *other, size_t count) {
    const uint8_t *first = (const uint8_t *)one, *second = (const uint8_t *)other;
    for (size_t i = 0; i < count; i++)
        if (first[i] != second[i])
            return first[i] < second[i] ? -1 : 1;
    return 0;
}
