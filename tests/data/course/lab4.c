/* Lab 4, another way: the mask is cleared while packets are taken, and causes are read until there are none. */
#include "nic.h"

enum { COUNT = 8, SIZE = 2048, RING = 0x1000, BUFFERS = 0x4000, CAUSES = INT_RXT0 | INT_RXDMT0 | INT_RXO | INT_LSC };

static struct rx_descriptor *ring;
static unsigned next;
static bool is_up;

static void fill(unsigned index) { ring[index] = (struct rx_descriptor){.buffer = BUFFERS + SIZE * index}; }

static void look_at_link(void) {
  bool was_up = is_up;
  is_up = nic_read(STATUS) & STATUS_LU;
  if (is_up != was_up) link_changed(is_up);
}

static void take_packets(void) {
  for (; ring[next].status & RX_DD; next = (next + 1) % COUNT) {
    deliver(nic_memory(ring[next].buffer), ring[next].length);
    fill(next);
    nic_write(RDT, next);
  }
}

void start(void) {
  nic_write(IMC, ~0u);
  ring = nic_memory(RING);
  for (unsigned i = 0; i < COUNT; i++) fill(i);
  nic_write(RDBAL, RING);
  nic_write(RDLEN, COUNT * sizeof ring[0]);
  nic_write(RDT, COUNT - 1);
  nic_write(RCTL, RCTL_EN | RCTL_BAM);
  nic_write(ICR, ~0u);
  nic_write(IMS, CAUSES);
  is_up = nic_read(STATUS) & STATUS_LU;
}

bool interrupt(void) {
  bool is_mine = false;
  nic_write(IMC, CAUSES);
  while (nic_read(ICR)) {
    is_mine = true;
    look_at_link();
    take_packets();
  }
  nic_write(IMS, CAUSES);
  return is_mine;
}
