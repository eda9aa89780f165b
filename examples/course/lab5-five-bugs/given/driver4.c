/* Driver 4 is driven by interrupts. Now and then a packet lies in memory, and nobody comes for it until the next one. */
#include "nic.h"

enum { COUNT = 8, SIZE = 2048, RING = 0x1000, BUFFERS = 0x4000 };

static struct rx_descriptor *ring;
static unsigned next;

static uint64_t buffer_of(unsigned index) { return BUFFERS + SIZE * index; }

static void fill(unsigned index) { ring[index] = (struct rx_descriptor){.buffer = buffer_of(index)}; }

void start(void) {
  ring = nic_memory(RING);
  for (unsigned i = 0; i < COUNT; i++) fill(i);
  nic_write(RDBAL, RING);
  nic_write(RDBAH, 0);
  nic_write(RDLEN, COUNT * sizeof ring[0]);
  nic_write(RDH, 0);
  nic_write(RDT, COUNT - 1);
  nic_write(RCTL, RCTL_EN | RCTL_BAM | RCTL_BSIZE_2048);
  nic_read(ICR);
  nic_write(IMS, INT_RXT0 | INT_RXO | INT_LSC);
}

bool interrupt(void) {
  uint32_t causes = nic_read(ICR);
  if (!causes) return false;
  if (causes & INT_LSC) link_changed(nic_read(STATUS) & STATUS_LU);
  for (; ring[next].status & RX_DD; next = (next + 1) % COUNT) {
    deliver(nic_memory(buffer_of(next)), ring[next].length);
    fill(next);
    nic_write(RDT, next);
  }
  /* all is done: the causes are acknowledged */
  nic_write(ICR, INT_RXT0 | INT_RXO);
  return true;
}
