/* Lab 2: packets are received. The handout says what each function does. */
#include "nic.h"

#include <string.h>

/* Where in the board's memory of 64 KiB the ring and its buffers lie: physical addresses. */
enum { COUNT = 8, SIZE = 2048, RING = 0x1000, BUFFERS = 0x4000 };

static struct rx_descriptor *ring;

void start(void) {
  ring = nic_memory(RING);
  /* 1. each descriptor gets its buffer's address; all else in it is 0
     2. RDBAL, RDBAH, RDLEN, RDH, RDT
     3. RCTL, last of all */
}

size_t receive(uint8_t *packet) {
  (void)packet;
  /* 1. is the next descriptor done? Else there is no packet
     2. copy the packet
     3. make the descriptor new, and give it back */
  return 0;
}
