/* Lab 4: the driver of lab 2, by interrupts. The handout says what each function does. */
#include "nic.h"

enum { COUNT = 8, SIZE = 2048, RING = 0x1000, BUFFERS = 0x4000 };

static struct rx_descriptor *ring;

void start(void) {
  ring = nic_memory(RING);
  /* 1. the receive ring and RCTL, as in lab 2
     2. what ICR had before does not count
     3. IMS lets the causes through that the routine answers */
}

bool interrupt(void) {
  /* 1. which causes are there?
     2. link_changed, where the link changed
     3. deliver each packet that lies in the ring, and give its descriptor back */
  return false;
}
