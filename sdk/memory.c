/* The four functions that a compiler may call by itself, for copies of structures and the like. */
#include <stddef.h>

/* The empty statement keeps a compiler from turning these loops into calls of the functions that they are. */
#define STEP __asm__ volatile("")

static void *upward(unsigned char *to, const unsigned char *from, size_t count)
{
    for (size_t at = 0; at < count; at++) {
        to[at] = from[at];
        STEP;
    }
    return to;
}

void *memcpy(void *restrict to, const void *restrict from, size_t count)
{
    return upward(to, from, count);
}

void *memmove(void *to, const void *from, size_t count)
{
    unsigned char *put = to;
    const unsigned char *get = from;
    if (put <= get)
        return upward(put, get, count);
    while (count-- > 0) {
        put[count] = get[count];
        STEP;
    }
    return to;
}

void *memset(void *to, int byte, size_t count)
{
    unsigned char *put = to;
    while (count-- > 0) {
        *put++ = (unsigned char)byte;
        STEP;
    }
    return to;
}

int memcmp(const void *left, const void *right, size_t count)
{
    const unsigned char *one = left, *other = right;
    for (; count > 0; count--, one++, other++) {
        if (*one != *other)
            return *one < *other ? -1 : 1;
        STEP;
    }
    return 0;
}
