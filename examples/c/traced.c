/* A driver that logs what it does, so that its run can be played again: on standard error, by trace.h.

       cc -Idist/x86_64-linux examples/c/traced.c dist/x86_64-linux/libbunjelav.a -o traced
       ./traced answers.pcap 2> traced.log
       ./em_trace --frames answers.pcap traced.log > traced.em && ./em_debug --compare traced.em

   Here the library's adapter stands behind the bus; on a real one the calls of trace.h are the same. The driver sends
   packets that are answered, and takes the answers, of which the other end of the wire writes a capture. */
#include "limit.h"
#include "bunjelav.h"

#include <stdint.h>

/* where a real driver asks its clock; here a microsecond is between two lines */
static uint64_t now = 1000000;
#define TRACE_TIME (now++)
#include "trace.h"

#include <stdio.h>
#include <stdlib.h>
#include <string.h>

enum { STATUS = 0x0008, ICR = 0x00C0, RCTL = 0x0100, TCTL = 0x0400, RAL = 0x5400, RAH = 0x5404 };
enum { RDBAL = 0x2800, RDLEN = 0x2808, RDT = 0x2818, TDBAL = 0x3800, TDLEN = 0x3808, TDT = 0x3818 };
enum { EN = 0x2, BAM = 0x8000, LSC = 0x04, RXT0 = 0x80, DD = 0x1, EOP_IFCS_RS = 0x0B };
enum { RX_RING = 0x1000, TX_RING = 0x1100, RX_BUFFERS = 0x4000, TX_BUFFERS = 0x8000, COUNT = 8, SIZE = 2048 };
enum { MEMORY = 65536, PACKETS = 12, LONGEST = 1514 };

/* as the adapter has them; the machine that this runs on has the lowest octet first, too */
struct descriptor {
  uint64_t buffer;
  uint16_t length;
  uint8_t checksum_or_offset, command_or_checksum, status, errors;
  uint16_t special;
};

static uint8_t ram[MEMORY];
static unsigned next_rx, next_tx;

/* ---- the bus */

static em_machine machine = EM_NO_MACHINE;

static void must(em_code code) {
  if (code == EM_OK) return;
  fprintf(stderr, "traced: refused: %s\n", em_strerror(code));
  exit(1);
}

static void bus_write(uint32_t offset, uint32_t value) {
  size_t steps;
  trace_write(stderr, offset, value);
  must(em_write(&machine, offset, value));
  must(em_run_tx(&machine, SIZE_MAX, &steps));
}

static uint32_t bus_read(uint32_t offset) {
  uint32_t value;
  must(em_read(&machine, offset, &value));
  trace_read(stderr, offset, value);
  return value;
}

/* ---- the driver */

/* Writes a descriptor that is given to the adapter by the next write of the ring's tail. */
static void put(uint64_t ring, unsigned index, struct descriptor descriptor) {
  memcpy(ram + ring + sizeof descriptor * index, &descriptor, sizeof descriptor);
  trace_descriptor(stderr, ring, index, &descriptor);
}

static void start(uint8_t own[6]) {
  const uint32_t words[2] = {bus_read(RAL), bus_read(RAH)};
  for (unsigned i = 0; i < 6; i++) own[i] = (uint8_t)(words[i / 4] >> 8 * (i % 4));
  for (unsigned i = 0; i < COUNT; i++) put(RX_RING, i, (struct descriptor){.buffer = RX_BUFFERS + SIZE * i});
  const uint32_t writes[][2] = {{RDBAL, RX_RING}, {RDLEN, COUNT * 16}, {RDT, COUNT - 1}, {RCTL, EN | BAM},
                                {TDBAL, TX_RING}, {TDLEN, COUNT * 16}, {TCTL, EN}};
  for (unsigned i = 0; i < sizeof writes / sizeof *writes; i++) bus_write(writes[i][0], writes[i][1]);
  (void)bus_read(STATUS);
}

static void transmit(const uint8_t *packet, uint16_t length) {
  const unsigned index = next_tx;
  const uint64_t buffer = TX_BUFFERS + SIZE * index;
  memcpy(ram + buffer, packet, length);
  trace_memory(stderr, buffer, packet, length);
  put(TX_RING, index, (struct descriptor){.buffer = buffer, .length = length, .command_or_checksum = EOP_IFCS_RS});
  next_tx = (next_tx + 1) % COUNT;
  bus_write(TDT, next_tx);
}

/* Takes a packet if there is one, and gives its buffer back. */
static unsigned receive(uint8_t *packet) {
  struct descriptor done;
  if (!(bus_read(ICR) & RXT0)) return 0;
  memcpy(&done, ram + RX_RING + sizeof done * next_rx, sizeof done);
  if (!(done.status & DD)) return 0;
  memcpy(packet, ram + done.buffer, done.length);
  put(RX_RING, next_rx, (struct descriptor){.buffer = done.buffer});
  bus_write(RDT, next_rx);
  next_rx = (next_rx + 1) % COUNT;
  return done.length;
}

/* ---- the other end of the wire */

/* Begins a capture, by the fields of its header: Ethernet, in the order of this machine. */
static FILE *capture(const char *name) {
  static const struct {
    uint32_t magic;
    uint16_t major, minor;
    uint32_t zone, digits, longest, link;
  } header = {0xA1B2C3D4, 2, 4, 0, 0, 65535, 1};
  FILE *file = fopen(name, "wb");
  if (!file || fwrite(&header, sizeof header, 1, file) != 1) {
    perror(name);
    exit(1);
  }
  return file;
}

/* Answers a packet: the two addresses change places. */
static void answer(FILE *file, const uint8_t *packet, size_t length) {
  static uint8_t frame[LONGEST];
  const uint32_t record[4] = {0, 0, (uint32_t)length, (uint32_t)length};
  size_t steps;
  em_note event;
  memcpy(frame, packet, length);
  memcpy(frame, packet + 6, 6);
  memcpy(frame + 6, packet, 6);
  (void)fwrite(record, sizeof record, 1, file);
  (void)fwrite(frame, length, 1, file);
  must(em_arrive(&machine, frame, length, &event));
  must(em_run_rx(&machine, SIZE_MAX, &steps));
}

int main(int count, char **words) {
  static const uint8_t mac[6] = {0x52, 0x54, 0x00, 0x12, 0x34, 0x56}, other[6] = {0x02, 0, 0, 0, 0, 0x01};
  static const em_region memory = {0, sizeof ram, ram};
  static const em_ram attached = {NULL, NULL, NULL, &memory, 1};
  static uint8_t packet[LONGEST], came[SIZE];
  unsigned answered = 0;
  FILE *file = capture(count > 1 ? words[1] : "answers.pcap");
  set_limit(LIMIT, "traced: it took 10 seconds: what loop of the driver waits for what the adapter never does?\n");
  must(em_make(&machine, MEMORY, 1048576, mac));
  must(em_attach(&machine, &attached));
  must(em_set_link(&machine, true));
  must(em_write(&machine, ICR, LSC)); /* (the link is up before the driver is there) */
  start(packet + 6);
  memcpy(packet, other, sizeof other);
  for (unsigned number = 0; number < PACKETS; number++) {
    const uint16_t length = number % 2 ? LONGEST : 60;
    memset(packet + 14, (int)number + 1, sizeof packet - 14);
    transmit(packet, length);
    answer(file, packet, length);
    answered += receive(came) == length && !memcmp(came + 14, packet + 14, (size_t)length - 14);
  }
  printf("%u of %u packets were answered\n", answered, PACKETS);
  em_free(&machine);
  return fclose(file) != 0;
}
