/* A program without any C library, to link an archive into: what the library wants of one, and a place to start. */
#include <stddef.h>

void *memcpy(void *to, const void *from, size_t len)
{
    for (size_t i = 0; i < len; i++)
        ((unsigned char *)to)[i] = ((const unsigned char *)from)[i];
    return to;
}

void *memmove(void *to, const void *from, size_t len)
{
    unsigned char *into = to;
    const unsigned char *out_of = from;
    if (into < out_of)
        return memcpy(to, from, len);
    while (len > 0) {
        len--;
        into[len] = out_of[len];
    }
    return to;
}

void *memset(void *to, int byte, size_t len)
{
    for (size_t i = 0; i < len; i++)
        ((unsigned char *)to)[i] = (unsigned char)byte;
    return to;
}

void start(void)
{
    for (;;)
        ;
}
