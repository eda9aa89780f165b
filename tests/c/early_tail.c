/* A driver that writes the tail before the descriptor, and dies of it: `early_tail FILE` keeps its run in the file.

   The adapter acts as soon as the tail is written: what arrived meanwhile goes into the buffer of before, which the driver
   has handed on. em_debug finds the line: `who 4014 1`. */
#include "bunjelav.h"

#include <assert.h>
#include <stdlib.h>
#include <string.h>

enum { RCTL = 0x0100, RDBAL = 0x2800, RDLEN = 0x2808, RDT = 0x2818, RX_ON = 0x8002 };
enum { RING = 0x1000, BUFFERS = 0x4000, SIZE = 2048, COUNT = 8, MEMORY = 65536, DD = 1, STATUS = 12 };

static em_machine m = EM_NO_MACHINE;
static uint8_t ram[MEMORY];

/* ---- the driver */

#define WRITE(offset, value) bus_write(__LINE__, offset, value)

static void bus_write(unsigned line, uint32_t offset, uint32_t value);

static unsigned next;
static uint64_t fresh = BUFFERS + SIZE * COUNT; /* the buffer that is given next */

static void put_buffer(unsigned index, uint64_t buffer) {
  for (int i = 0; i < 8; i++) ram[RING + 16 * index + i] = (uint8_t)(buffer >> 8 * i);
  ram[RING + 16 * index + STATUS] = 0;
}

static void start(void) {
  for (unsigned i = 0; i < COUNT; i++) put_buffer(i, BUFFERS + SIZE * i);
  WRITE(RDBAL, RING);
  WRITE(RDLEN, 16 * COUNT);
  WRITE(RDT, COUNT - 1);
  WRITE(RCTL, RX_ON);
}

/* Hands the buffer of a packet on, and gives the adapter another one. */
static const uint8_t *receive(void) {
  uint8_t *done = ram + RING + 16 * next;
  if (!(done[STATUS] & DD)) return NULL;
  const uint8_t *packet = ram + (done[0] | done[1] << 8);
  WRITE(RDT, (next + 1) % COUNT); /* the mistake: the descriptor has the old buffer still */
  put_buffer(next, fresh);
  fresh += SIZE;
  next = (next + 1) % COUNT;
  return packet;
}

/* ---- the machine that it runs on: the adapter acts after each access, while frames wait */

static uint8_t frame[60] = {0xFF, 0xFF, 0xFF, 0xFF, 0xFF, 0xFF};

static void must(uint32_t why) {
  if (why != EM_OK) exit((int)why);
}

static void bus_write(unsigned line, uint32_t offset, uint32_t value) {
  size_t steps;
  must(em_source(&m, __FILE__, line));
  must(em_write(&m, offset, value));
  must(em_run_rx(&m, SIZE_MAX, &steps));
}

static void arrive(unsigned number) {
  em_note event;
  frame[20] = (uint8_t)number;
  must(EM_ARRIVE(&m, frame, sizeof frame, &event));
}

int main(int words, char **word) {
  static const uint8_t mac[6] = {0x52, 0x54, 0x00, 0x12, 0x34, 0x56};
  const em_region region = {0, MEMORY, ram};
  const em_ram all = {NULL, NULL, NULL, &region, 1};
  size_t steps;
  if (words != 2) return 1;
  must(em_make(&m, MEMORY, 1048576, mac));
  must(em_record_to(&m, word[1]));
  must(em_attach(&m, &all));
  must(em_set_link(&m, true));
  start();
  for (unsigned number = 0; number < 9; number++) arrive(number);
  must(EM_RUN_RX(&m, SIZE_MAX, &steps)); /* seven of them have a descriptor */
  const uint8_t *packet = receive();
  assert(packet[20] == 0); /* it was handed on, and is another one now */
  return 0;
}
