/* A driver that writes its descriptors through pointers, with one mistake, and the harness that finds the line of it.

       cc -Idist/x86_64-linux examples/c/driver.c dist/x86_64-linux/libbunjelav.a -o driver && ./driver

   The driver is plain C over registers and memory of its own, which is attached: the adapter reads and writes it as a
   real one does, and an access of a register or a frame that arrives is one call.

   What the driver stores there is no event by itself: the adapter sees it when a step needs it. To have the line at which
   a descriptor was written, the harness brings the ring over before each access and arrival, under the line as its tag. A
   store is so found between the line before it and the line that is told. */
#include "limit.h"
#include "bunjelav.h"

#include <stdio.h>
#include <stdlib.h>
#include <string.h>

/* ---- the driver */

enum { RCTL = 0x0100, RDBAL = 0x2800, RDLEN = 0x2808, RDH = 0x2810, RDT = 0x2818 };
enum { RING_AT = 0x1000, BUFFERS_AT = 0x4000, MEMORY = 65536, COUNT = 8, SIZE = 2048, DD = 0x01, EN_AND_BAM = 0x8002 };

struct descriptor {
  uint64_t buffer;
  uint16_t length, checksum;
  uint8_t status, errors;
  uint16_t special;
};

static uint8_t ram[MEMORY];
static volatile struct descriptor *const ring = (volatile struct descriptor *)(void *)(ram + RING_AT);
static unsigned next;

static void bus_write(int line, uint32_t offset, uint32_t value);
static uint32_t bus_read(int line, uint32_t offset);

#define WRITE(offset, value) bus_write(__LINE__, offset, value)
#define READ(offset) bus_read(__LINE__, offset)
#define ARRIVE(frame, length) bus_arrive(__LINE__, frame, length)

static void start(void) {
  for (unsigned i = 0; i < COUNT; i++) ring[i].buffer = BUFFERS_AT + SIZE * i;
  WRITE(RDBAL, RING_AT);
  WRITE(RDLEN, COUNT * sizeof(struct descriptor));
  WRITE(RDT, COUNT - 1);
  WRITE(RCTL, EN_AND_BAM);
}

/* Takes a packet if there is one, and gives its buffer back. */
static const uint8_t *receive(unsigned *length) {
  static uint8_t packet[SIZE];
  (void)READ(RDH); /* (a posted write would be flushed by this) */
  volatile struct descriptor *done = &ring[next];
  if (!(done->status & DD)) return NULL;
  *length = done->length;
  memcpy(packet, ram + BUFFERS_AT + SIZE * next, *length < SIZE ? *length : SIZE);
  done->buffer = RING_AT + SIZE * next; /* the mistake: BUFFERS_AT was meant */
  done->status = 0;
  WRITE(RDT, next); /* found here */
  next = (next + 1) % COUNT;
  return packet;
}

/* ---- the harness */

static em_machine machine = EM_NO_MACHINE;
static const em_region memory = {0, sizeof ram, ram};
static const em_ram attached = {NULL, NULL, NULL, &memory, 1};

static void must(em_code code) {
  if (code == EM_OK) return;
  fprintf(stderr, "driver: refused: %s\n", em_strerror(code));
  exit(1);
}

/* What the driver stored in its ring since the line before becomes a write of guest memory. */
static void before(int line) {
  size_t writes;
  must(em_tag(&machine, (uint64_t)line));
  must(em_sync_in_range(&machine, RING_AT, ram + RING_AT, COUNT * sizeof(struct descriptor), &writes));
}

/* The adapter acts. */
static void after(void) {
  size_t steps;
  must(em_run_rx(&machine, SIZE_MAX, &steps));
}

static void bus_write(int line, uint32_t offset, uint32_t value) {
  before(line);
  must(em_write(&machine, offset, value));
  after();
}

static uint32_t bus_read(int line, uint32_t offset) {
  uint32_t value;
  before(line);
  must(em_read(&machine, offset, &value));
  after();
  return value;
}

static void bus_arrive(int line, const uint8_t *frame, size_t length) {
  em_note event;
  before(line);
  must(em_arrive(&machine, frame, length, &event));
  after();
}

/* The line behind which this descriptor got its buffer. What the adapter wrote over it since is taken back. */
static void who_gave(unsigned index) {
  const em_watch watch = {EM_WATCH_OCTETS, 0, RING_AT + sizeof(struct descriptor) * index, 8};
  em_change change;
  em_note event;
  size_t done;
  uint64_t buffer;
  for (;;) {
    must(em_last_change(&machine, &watch, &change));
    must(em_event(&machine, change.back - 1, &event));
    if (event.kind == EM_POKE) break;
    must(em_back(&machine, change.back, &done));
  }
  must(em_peek(&machine, watch.address, (uint8_t *)&buffer, sizeof buffer));
  printf("driver.c:%u: before this access descriptor %u got the buffer %04X\n", (unsigned)event.tag, index,
         (unsigned)buffer);
}

int main(void) {
  static const uint8_t mac[6] = {0x52, 0x54, 0x00, 0x12, 0x34, 0x56};
  uint8_t frame[60] = {0xFF, 0xFF, 0xFF, 0xFF, 0xFF, 0xFF};
  set_limit(LIMIT, "driver: it took 10 seconds: what loop of the driver waits for what the adapter never does?\n");
  must(em_make(&machine, MEMORY, 1048576, mac));
  must(em_attach(&machine, &attached));
  must(em_set_link(&machine, true));
  start();
  for (unsigned number = 0; number < 20; number++) {
    unsigned length = 0;
    frame[59] = (uint8_t)number;
    ARRIVE(frame, sizeof frame);
    const uint8_t *packet = receive(&length);
    if (packet && length == sizeof frame && !memcmp(packet, frame, length)) continue;
    printf("frame %u did not come as it was sent\n", number);
    who_gave(number % COUNT);
    break;
  }
  em_free(&machine);
  return 0;
}
