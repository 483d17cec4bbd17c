/* platform/streams.c for Windows, whose streams begin as text: here octets pass as they are. Proved code doesn't run
 * there; the C that is made of it does (c/). */
#include "platform.h"

#include <errno.h>
#include <fcntl.h>
#include <io.h>
#include <stdlib.h>

enum { MOST = 1 << 30 }; /* octets that one call takes */

__attribute__((constructor)) static void make_binary(void) {
    for (int stream = 0; stream < 3; stream++) _setmode(stream, _O_BINARY);
}

ssize_t platform_read(int stream, void *octets, size_t length) {
    return _read(stream, octets, length < MOST ? (unsigned)length : MOST);
}

ssize_t platform_write(int stream, const void *octets, size_t length) {
    return _write(stream, octets, length < MOST ? (unsigned)length : MOST);
}

void platform_exit(int status) { _exit(status); }
