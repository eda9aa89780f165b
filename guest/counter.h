/* The guest's program counter at an access: eight octets of a file that em_guest shares with its plugin in QEMU
   (plugin/counter.c), which leaves it there before each instruction. */
#ifndef GUEST_COUNTER_H
#define GUEST_COUNTER_H

#include <stdbool.h>
#include <stdint.h>

enum { COUNTER_PAGE = 4096 }; /* the file's size, as the plugin maps it */

struct counter {
  int file; /* -1 where there is none */
};

void counter_make(struct counter *counter);

/* Makes the file, whose descriptor is for QEMU too. False where it can't be made. */
bool counter_share(struct counter *counter);

void counter_close(struct counter *counter);

/* The program counter of the instruction that the guest is in, or 0. */
uint64_t counter_now(const struct counter *counter);

#endif
