/* How proved code reads, writes and ends: by read, write and _exit of the C library, but for two things. A stream that
 * does not block is waited for. And before the end output and notes are closed, since a file system may only then say
 * that what was written is lost, as where a disk on a network is full. */
#include "platform.h"

#include <errno.h>
#include <poll.h>
#include <unistd.h>

/* Waits for a stream that had nothing to give, or no room. Returns whether to try again; else errno says why not. */
static int waits(int stream, short events) {
    if (errno != EAGAIN && errno != EWOULDBLOCK) return 0;
    struct pollfd waited = {.fd = stream, .events = events};
    return poll(&waited, 1, -1) >= 0 || errno == EINTR;
}

ssize_t platform_read(int stream, void *octets, size_t length) {
    ssize_t count;
    do count = read(stream, octets, length);
    while (count < 0 && waits(stream, POLLIN));
    return count;
}

ssize_t platform_write(int stream, const void *octets, size_t length) {
    ssize_t count;
    do count = write(stream, octets, length);
    while (count < 0 && waits(stream, POLLOUT));
    return count;
}

/* Whether all that was written to a stream got there, as far as the system says. One that was closed from the first has
 * been written nothing. */
static int closes(int stream) { return !close(stream) || errno == EINTR || errno == EBADF; }

/* The statuses of a run that wrote all that it was to write. */
static int has_written(int status) { return status == 0 || status == 1 || status == 6 || status == 7; }

void platform_exit(int status) {
    if (has_written(status)) {
        int output = closes(STDOUT_FILENO), notes = closes(STDERR_FILENO);
        if (!output || !notes) status = 4;
    }
    _exit(status);
}
