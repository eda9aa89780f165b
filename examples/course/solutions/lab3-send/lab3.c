/* Lab 3, a solution. */
#include "nic.h"

#include <string.h>

enum { COUNT = 8, SIZE = 2048, RING = 0x1000, BUFFERS = 0x4000, LONGEST = 1514 };

static struct tx_descriptor *ring;
static unsigned tail;

static uint64_t buffer_of(unsigned index) { return BUFFERS + SIZE * index; }

void start(void) {
  ring = nic_memory(RING);
  memset(ring, 0, COUNT * sizeof ring[0]);
  nic_write(TDBAL, RING);
  nic_write(TDBAH, 0);
  nic_write(TDLEN, COUNT * sizeof ring[0]);
  nic_write(TDH, 0);
  nic_write(TDT, 0);
  nic_write(TCTL, TCTL_EN | TCTL_PSP);
}

bool transmit(const uint8_t *packet, size_t length) {
  unsigned after = (tail + 1) % COUNT;
  if (length > LONGEST || after == nic_read(TDH)) return false;
  memcpy(nic_memory(buffer_of(tail)), packet, length);
  ring[tail] = (struct tx_descriptor){
      .buffer = buffer_of(tail), .length = (uint16_t)length, .command = TX_EOP | TX_IFCS | TX_RS};
  tail = after;
  nic_write(TDT, tail);
  return true;
}
