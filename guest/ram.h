/* Guest memory as the library's em_attach takes it: two functions that find octets at the guest's own addresses; and what
   the adapter finds there that the guest has written, as memory writes of the run. */
#ifndef GUEST_RAM_H
#define GUEST_RAM_H

#include <stdbool.h>
#include <stddef.h>
#include <stdint.h>

#include "bunjelav.h"
#include "memory.h"
#include "run.h"

enum {
  MOST_PIECE = 16384, /* octets of a range of a step */
  MOST_PIECES = 3     /* ranges of a step: its descriptor, what it reads, and where it writes */
};

/* Octets that were read from guest memory for the model; and which of them the model had otherwise, from the first to
   the last. */
struct piece {
  uint64_t address;
  size_t length, first, count;
  uint8_t octets[MOST_PIECE];
};

/* The descriptor that is worked on. */
struct work {
  uint32_t side; /* of enum em_rings */
  uint64_t address;
  size_t buffer; /* octets of its buffer */
};

struct ram {
  struct memory memory;
  const em_machine *machine;
  struct work work;
  struct piece pieces[MOST_PIECES];
  size_t count;
  const char *what; /* what was looked for and is no guest memory, or NULL; and its address */
  uint64_t where;
};

/* Attaches it to the machine, with no guest memory yet. Both stay where they are until the machine is freed. */
bool ram_attach(struct ram *ram, em_machine *machine);

/* Begins work on a descriptor of a ring. */
void ram_begin(struct ram *ram, const em_ring_setup *setup, uint32_t side, uint32_t index);

/* Ends it, behind a step of the library's: what was read for it becomes memory writes of the run. Where the step was
   refused the library has taken them back; so they are made again, since the run has them. */
void ram_end(struct ram *ram, em_machine *machine, struct run *run, struct source source, bool is_refused);

/* Brings what the guest has written to the descriptor, and of a transmit descriptor to its buffer, into the model and
   the run, by the work that was begun. False where it is no guest memory. `octets` becomes how many were looked at. */
bool ram_bring(struct ram *ram, em_machine *machine, struct run *run, struct source source, size_t *octets);

#endif
