/* Driver 3 sends packets. Some go out as others that were sent before, or not at all. */
#include "nic.h"

#include <string.h>

enum { COUNT = 8, SIZE = 2048, RING = 0x1000, BUFFERS = 0x4000, LONGEST = 1514 };

static struct tx_descriptor *ring;
static unsigned tail;

/* The index of a free descriptor, or COUNT where there is none; the tail goes behind it. */
static unsigned claim(void) {
  unsigned index = tail, after = (tail + 1) % COUNT;
  if (after == nic_read(TDH)) return COUNT;
  tail = after;
  nic_write(TDT, tail);
  return index;
}

void start(void) {
  ring = nic_memory(RING);
  memset(ring, 0, COUNT * sizeof ring[0]);
  nic_write(TDBAL, RING);
  nic_write(TDBAH, 0);
  nic_write(TDLEN, COUNT * sizeof ring[0]);
  nic_write(TDH, 0);
  nic_write(TDT, 0);
  nic_write(TCTL, TCTL_EN | TCTL_PSP);
}

bool transmit(const uint8_t *packet, size_t length) {
  if (length > LONGEST) return false;
  unsigned index = claim();
  if (index == COUNT) return false;
  uint64_t buffer = BUFFERS + SIZE * index;
  memcpy(nic_memory(buffer), packet, length);
  ring[index] = (struct tx_descriptor){
      .buffer = buffer, .length = (uint16_t)length, .command = TX_EOP | TX_IFCS | TX_RS};
  return true;
}
