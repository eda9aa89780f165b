/* Guest memory, as QEMU shares it: octets in files, which are read and written by pread and pwrite. So a file that is
   shorter than QEMU said is an error, and no signal. */
#ifndef GUEST_MEMORY_H
#define GUEST_MEMORY_H

#include <stdbool.h>
#include <stddef.h>
#include <stdint.h>

#include "message.h"

struct memory {
  struct {
    struct region region;
    int descriptor;
  } parts[MOST_REGIONS];
  size_t count;
};

/* Makes guest memory what a message of SYNC_MEMORY says, and nothing of what it was. It takes the message's
   descriptors. A region that its file does not hold is left out, and told. */
void memory_set(struct memory *memory, const struct message *message);

/* Forgets all of it. */
void memory_close(struct memory *memory);

/* Copies octets; false where they are not all there, or the file refuses. Some of them may have been copied then. */
bool memory_read(const struct memory *memory, uint64_t address, uint8_t *out, size_t length);
bool memory_write(const struct memory *memory, uint64_t address, const uint8_t *octets, size_t length);

#endif
