/* Driver 5 receives packets of groups. Where it has left one group, it hears nothing of another. */
#include "nic.h"

#include <string.h>

enum { COUNT = 8, SIZE = 2048, RING = 0x1000, BUFFERS = 0x4000, WORD = 32 };

static struct rx_descriptor *ring;
static unsigned next;

static uint64_t buffer_of(unsigned index) { return BUFFERS + SIZE * index; }

static void fill(unsigned index) { ring[index] = (struct rx_descriptor){.buffer = buffer_of(index)}; }

void start(void) {
  ring = nic_memory(RING);
  for (unsigned i = 0; i < COUNT; i++) fill(i);
  nic_write(RDBAL, RING);
  nic_write(RDBAH, 0);
  nic_write(RDLEN, COUNT * sizeof ring[0]);
  nic_write(RDH, 0);
  nic_write(RDT, COUNT - 1);
  nic_write(RCTL, RCTL_EN | RCTL_BAM | RCTL_BSIZE_2048);
}

/* The hash of a group, as RCTL.MO = 0 takes it: bits 47 to 36 of the address. */
static unsigned hash_of(const uint8_t group[6]) { return (unsigned)group[5] << 4 | group[4] >> 4; }

static uint32_t word_of(const uint8_t group[6]) { return MTA + hash_of(group) / WORD * sizeof(uint32_t); }

static uint32_t bit_of(const uint8_t group[6]) { return 1u << hash_of(group) % WORD; }

void join(const uint8_t group[6]) {
  nic_write(word_of(group), nic_read(word_of(group)) | bit_of(group));
}

void leave(const uint8_t group[6]) {
  nic_write(word_of(group), nic_read(word_of(group)) & bit_of(group));
}

size_t receive(uint8_t *packet) {
  if (!(ring[next].status & RX_DD)) return 0;
  size_t length = ring[next].length;
  memcpy(packet, nic_memory(buffer_of(next)), length);
  fill(next);
  nic_write(RDT, next);
  next = (next + 1) % COUNT;
  return length;
}
