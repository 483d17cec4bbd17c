/* The error number of the C library, which each thread has of its own. */
#include "platform.h"

#include <errno.h>

int32_t rattle_errno(void) { return errno; }

void rattle_set_errno(int32_t error) { errno = error; }
