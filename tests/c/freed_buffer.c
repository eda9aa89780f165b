/* A driver that frees a buffer which the adapter still has, and dies of it: `freed_buffer FILE` keeps its run in the file.

   The next allocation gets the same octets, and the adapter writes a frame over it. em_debug finds who gave the adapter this
   buffer, and never took it back: `who 1010 8`. */
#include "bunjelav.h"

#include <assert.h>
#include <stdlib.h>
#include <string.h>

enum { RCTL = 0x0100, RDBAL = 0x2800, RDLEN = 0x2808, RDT = 0x2818, RX_ON = 0x8002 };
enum { RING = 0x1000, POOL = 0x4000, SIZE = 2048, COUNT = 8, MEMORY = 65536 };

static em_machine m = EM_NO_MACHINE;

static void must(uint32_t why) {
  if (why != EM_OK) exit((int)why);
}

/* ---- buffers: the one that was freed last is given first */

static uint64_t freed[8], top = POOL;
static unsigned count;

static uint64_t take_buffer(void) {
  if (count > 0) return freed[--count];
  top += SIZE;
  return top - SIZE;
}

static void free_buffer(uint64_t buffer) { freed[count++] = buffer; }

/* ---- the driver */

static uint64_t given[COUNT];

static void give(unsigned index) {
  uint8_t octets[16] = {0};
  given[index] = take_buffer();
  for (int i = 0; i < 8; i++) octets[i] = (uint8_t)(given[index] >> 8 * i);
  must(EM_POKE(&m, RING + 16 * index, octets, sizeof octets)); /* the adapter has it from here on */
}

static void start(void) {
  must(EM_WRITE(&m, RDBAL, RING));
  must(EM_WRITE(&m, RDLEN, 16 * COUNT));
  for (unsigned i = 0; i < COUNT; i++) give(i);
  must(EM_WRITE(&m, RDT, COUNT - 1));
  must(EM_WRITE(&m, RCTL, RX_ON));
}

/* a table of flows, in a buffer of its own */
static uint64_t flows;
static const uint8_t EMPTY[8] = {'e', 'm', 'p', 't', 'y', 0, 0, 0};

static void open_flows(void) {
  free_buffer(given[1]); /* the mistake: descriptor 1 has it */
  flows = take_buffer();
  must(EM_POKE(&m, flows, EMPTY, sizeof EMPTY));
}

int main(int words, char **word) {
  static const uint8_t mac[6] = {0x52, 0x54, 0x00, 0x12, 0x34, 0x56};
  uint8_t frame[60] = {0xFF, 0xFF, 0xFF, 0xFF, 0xFF, 0xFF}, octets[8];
  em_note event;
  size_t steps;
  if (words != 2) return 1;
  must(em_make(&m, MEMORY, 1048576, mac));
  must(em_record_to(&m, word[1]));
  must(EM_SET_LINK(&m, true));
  start();
  open_flows();
  for (int i = 0; i < 2; i++) must(EM_ARRIVE(&m, frame, sizeof frame, &event));
  must(EM_RUN_RX(&m, SIZE_MAX, &steps));
  must(em_peek(&m, flows, octets, sizeof octets));
  assert(memcmp(octets, EMPTY, sizeof octets) == 0);
  return 0;
}
