/* Lab 3: packets are sent. The handout says what each function does. */
#include "nic.h"

#include <string.h>

/* Where in the board's memory of 64 KiB the ring and its buffers lie: physical addresses. LONGEST is that of a packet. */
enum { COUNT = 8, SIZE = 2048, RING = 0x1000, BUFFERS = 0x4000, LONGEST = 1514 };

static struct tx_descriptor *ring;

void start(void) {
  ring = nic_memory(RING);
  /* 1. all descriptors are 0
     2. TDBAL, TDBAH, TDLEN, TDH, TDT
     3. TCTL, last of all */
}

bool transmit(const uint8_t *packet, size_t length) {
  (void)packet, (void)length;
  /* 1. is there room? Else the packet is not taken
     2. copy the packet to the descriptor's buffer
     3. write the descriptor
     4. give it to the adapter */
  return false;
}
