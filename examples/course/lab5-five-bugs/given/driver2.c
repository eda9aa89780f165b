/* Driver 2 receives packets, and copies none before it has to: it has one buffer more than descriptors, which goes to the
   descriptor whose packet is taken. Where packets come in bursts, some hold the octets of others. */
#include "nic.h"

#include <string.h>

enum { COUNT = 8, SIZE = 2048, RING = 0x1000, BUFFERS = 0x4000 };

static struct rx_descriptor *ring;
static unsigned next;
static uint64_t spare;

static void fill(unsigned index, uint64_t buffer) { ring[index] = (struct rx_descriptor){.buffer = buffer}; }

void start(void) {
  ring = nic_memory(RING);
  for (unsigned i = 0; i < COUNT; i++) fill(i, BUFFERS + SIZE * i);
  spare = BUFFERS + SIZE * COUNT;
  nic_write(RDBAL, RING);
  nic_write(RDBAH, 0);
  nic_write(RDLEN, COUNT * sizeof ring[0]);
  nic_write(RDH, 0);
  nic_write(RDT, COUNT - 1);
  nic_write(RCTL, RCTL_EN | RCTL_BAM | RCTL_BSIZE_2048);
}

size_t receive(uint8_t *packet) {
  if (!(ring[next].status & RX_DD)) return 0;
  size_t length = ring[next].length;
  const uint8_t *octets = nic_memory(ring[next].buffer);
  fill(next, spare);
  spare = ring[next].buffer;
  nic_write(RDT, next);
  next = (next + 1) % COUNT;
  memcpy(packet, octets, length);
  return length;
}
