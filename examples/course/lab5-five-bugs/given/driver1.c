/* Driver 1 receives packets. It works for some of them, and then hands out packets that it had handed out before. */
#include "nic.h"

#include <string.h>

enum { COUNT = 8, SIZE = 2048, RING = 0x1000, BUFFERS = 0x4000 };

static struct rx_descriptor *ring;
static unsigned next;

static uint64_t buffer_of(unsigned index) { return BUFFERS + SIZE * index; }

/* Gives a descriptor to the adapter. */
static void give(unsigned index) {
  ring[index].buffer = buffer_of(index);
  nic_write(RDT, index);
}

void start(void) {
  ring = nic_memory(RING);
  memset(ring, 0, COUNT * sizeof ring[0]);
  nic_write(RDBAL, RING);
  nic_write(RDBAH, 0);
  nic_write(RDLEN, COUNT * sizeof ring[0]);
  nic_write(RDH, 0);
  for (unsigned i = 0; i < COUNT; i++) ring[i].buffer = buffer_of(i);
  give(COUNT - 1);
  nic_write(RCTL, RCTL_EN | RCTL_BAM | RCTL_BSIZE_2048);
}

size_t receive(uint8_t *packet) {
  unsigned index = next;
  if (!(ring[index].status & RX_DD)) return 0;
  size_t length = ring[index].length;
  memcpy(packet, nic_memory(ring[index].buffer), length);
  next = (next + 1) % COUNT;
  give(index);
  return length;
}
