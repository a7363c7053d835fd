/* What the archive needs from outside, for places without a C library. */
#include <stddef.h>

void *memset(void *place, int value, size_t length)
{
    volatile unsigned char *bytes = place;      /* volatile, or the compiler makes a call of memset of the loop */
    for (size_t i = 0; i < length; i++)
        bytes[i] = (unsigned char)value;
    return place;
}
