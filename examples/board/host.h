/* What the examples need besides the library: files of the machine on which qemu runs. On a board of your own the link
 * stands in their place. */
#ifndef HOST_H
#define HOST_H

#include <stddef.h>
#include <stdint.h>

/* Opens a file, to read it or to write it anew. Where it can't be opened, the program ends with status 3. */
int host_reads(const char *name);
int host_writes(const char *name);

/* Reads up to `length` octets. Answers how many: 0 at the end of the file. */
size_t host_read(int file, void *to, size_t length);

/* Writes octets. Where that fails, the program ends with status 4. */
void host_write(int file, const void *from, size_t length);

_Noreturn void host_exit(int status);

#endif
