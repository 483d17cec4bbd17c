/* All that the library calls of a C library; where there is one, this file is not needed. An option in the Makefile
 * keeps gcc from making calls of the loops, which would be calls of what they define. */
#include <stddef.h>

void *memcpy(void *restrict to, const void *restrict from, size_t length) {
    for (size_t i = 0; i < length; i++) ((char *)to)[i] = ((const char *)from)[i];
    return to;
}

void *memmove(void *to, const void *from, size_t length) {
    if ((const char *)to > (const char *)from)
        while (length--) ((char *)to)[length] = ((const char *)from)[length];
    else
        for (size_t i = 0; i < length; i++) ((char *)to)[i] = ((const char *)from)[i];
    return to;
}

void *memset(void *to, int octet, size_t length) {
    for (size_t i = 0; i < length; i++) ((char *)to)[i] = (char)octet;
    return to;
}
