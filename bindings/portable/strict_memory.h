/* Included before a file. Its memcpy copies bytes that overlap in the wrong order, so the result
 * differs from that of memmove. A memcpy of no bytes aborts. */
#include <stdlib.h>
#include <string.h>

static inline void *strict_memcpy(void *to, const void *from, size_t size) {
    volatile unsigned char *written = (volatile unsigned char *)to;
    const volatile unsigned char *read = (const volatile unsigned char *)from;
    size_t at;
    if (!size) abort();
    if (to < from)
        for (at = size; at; at--) written[at - 1] = read[at - 1];
    else
        for (at = 0; at < size; at++) written[at] = read[at];
    return to;
}

#define memcpy strict_memcpy
