/* Measures calls of the C library, in nanoseconds of processor time each, over ten million of them (of those that go
   over all memory, over a hundred thousand; of frames that go in and out over attached memory, over twenty thousand).

       cc -O2 -Idist/x86_64-linux bench/calls.c dist/x86_64-linux/libbunjelav.a -o calls && ./calls

   With plain_calls.c in the place of the library it measures a plain program. With the name of a file it also measures what it
   costs to keep a run in that file, a line for each call, over a million register accesses and twenty thousand frames. */
#include "bunjelav.h"

#include <stdio.h>
#include <stdlib.h>
#include <string.h>
#include <time.h>

enum { CALLS = 10000000, BACK = 20000, SYNCS = 100000, MEMORY = 65536, TRIPS = 20000, KEPT = 1000000,
       LARGE = 16777216, DESCRIPTORS = 256 };

/* a descriptor and a frame, in two pages of memory */
enum { RING = 0x1000, DESCRIPTOR = 16, BUFFER = 0x4200, FRAME = 1514 };

/* registers: the interrupt mask, the engines, and the rings */
enum { IMS = 0x00D0, RCTL = 0x0100, TCTL = 0x0400, RDBAL = 0x2800, RDLEN = 0x2808, RDT = 0x2818 };
enum { TDBAL = 0x3800, TDLEN = 0x3808, TDT = 0x3818, RX_ON = 0x8002, TX_ON = 0x2 };

/* the rings of a driver, with a page for each of their buffers from BUFFERS on */
enum { RX_RING = 0x2000, TX_RING = 0x3000, BUFFERS = 0x10000, COUNT = 16, DD = 1, EOP = 1, RS = 8, STATUS = 12, COMMAND = 11 };

static double began;

static double seconds(void) { return (double)clock() / CLOCKS_PER_SEC; }

static void begin(void) { began = seconds(); }

static void tell(const char *what, double calls) {
  printf("%-40s %7.1f ns\n", what, (seconds() - began) / calls * 1e9);
}

static void must(uint32_t refusal) {
  if (refusal != EM_OK) exit((int)refusal);
}

/* ---- a driver over attached memory of so many octets: a frame comes in, and the driver sends it out again */

static uint8_t *buffer_of(uint8_t *ram, int ring, unsigned index) {
  return ram + BUFFERS + 4096 * (COUNT * (size_t)ring + index);
}

static void put_buffer(uint8_t *descriptor, size_t at) {
  for (int i = 0; i < 4; i++) descriptor[i] = (uint8_t)(at >> 8 * i);
}

static void start_driver(em_machine *machine, uint8_t *ram) {
  for (unsigned i = 0; i < COUNT; i++) {
    put_buffer(ram + RX_RING + 16 * i, (size_t)(buffer_of(ram, 0, i) - ram));
    put_buffer(ram + TX_RING + 16 * i, (size_t)(buffer_of(ram, 1, i) - ram));
  }
  must(em_set_link(machine, true));
  must(em_write(machine, RDBAL, RX_RING));
  must(em_write(machine, RDLEN, 16 * COUNT));
  must(em_write(machine, RDT, COUNT - 1));
  must(em_write(machine, TDBAL, TX_RING));
  must(em_write(machine, TDLEN, 16 * COUNT));
  must(em_write(machine, RCTL, RX_ON));
  must(em_write(machine, TCTL, TX_ON));
}

static void round_trip(em_machine *machine, uint8_t *ram, const uint8_t *frame, unsigned length, unsigned number) {
  static uint8_t out[EM_MOST_SENT];
  const unsigned index = number % COUNT;
  uint8_t *received = ram + RX_RING + 16 * index, *sends = ram + TX_RING + 16 * index, *buffer = buffer_of(ram, 1, index);
  em_note event;
  size_t steps, sent, octets = 0;
  must(em_arrive(machine, frame, length, &event));
  must(em_run_rx(machine, SIZE_MAX, &steps));
  if (!(received[STATUS] & DD) || (received[8] | received[9] << 8) != (int)length) exit(100);
  memcpy(buffer, buffer_of(ram, 0, index), length);
  received[STATUS] = 0;
  if (number % 4 == 3) must(em_write(machine, RDT, index)); /* the tail follows at each fourth */
  sends[8] = (uint8_t)length;
  sends[9] = (uint8_t)(length >> 8);
  sends[COMMAND] = EOP | RS;
  sends[STATUS] = 0;
  must(em_write(machine, TDT, (index + 1) % COUNT));
  must(em_run_tx(machine, SIZE_MAX, &steps));
  must(em_wire_count(machine, &sent));
  must(em_wire_frame(machine, sent - 1, out, sizeof out, &octets));
  if (octets != length || memcmp(out, frame, length) != 0) exit(101);
}

static void round_trips(size_t memory, unsigned length) {
  static const uint8_t mac[6] = {0x52, 0x54, 0x00, 0x12, 0x34, 0x56};
  uint8_t frame[FRAME] = {0xFF, 0xFF, 0xFF, 0xFF, 0xFF, 0xFF}, *ram = calloc(1, memory);
  const em_region region = {0, memory, ram};
  const em_ram all = {NULL, NULL, NULL, &region, 1};
  em_machine machine = EM_NO_MACHINE;
  char what[64];
  if (ram == NULL) exit(EM_MEMORY);
  must(em_make(&machine, memory, 1048576, mac));
  must(em_attach(&machine, &all));
  start_driver(&machine, ram);
  for (unsigned number = 0; number < TRIPS; number++) {
    if (number == COUNT) begin(); /* (each page was touched once) */
    memcpy(frame + 14, &number, sizeof number);
    round_trip(&machine, ram, frame, length, number);
  }
  snprintf(what, sizeof what, "%u octets in and out, %zu KiB attached", length, memory / 1024);
  tell(what, TRIPS - COUNT);
  begin();
  for (uint32_t i = 0; i < CALLS; i++) must(em_write(&machine, RDT, i & 0xFF));
  if (length == 60) tell("a write of RDT that starts no step", CALLS);
  em_free(&machine);
  free(ram);
}

/* How many octets the file has for each access. */
static void tell_size(const char *path) {
  FILE *file = fopen(path, "r");
  if (file == NULL || fseek(file, 0, SEEK_END) != 0) exit(102);
  printf("%-40s %7.1f octets\n", "its line", (double)ftell(file) / KEPT);
  fclose(file);
}

/* Register accesses and frames of a run that is kept in a file, with the line that makes them; and a line's octets. */
static void keep(const char *path, bool is_mapped, bool has_places) {
  static const uint8_t mac[6] = {0x52, 0x54, 0x00, 0x12, 0x34, 0x56};
  uint8_t frame[FRAME] = {0xFF, 0xFF, 0xFF, 0xFF, 0xFF, 0xFF};
  em_machine machine = EM_NO_MACHINE;
  em_note event;
  uint32_t value = 0;
  must(em_make(&machine, MEMORY, 1048576, mac));
  must(is_mapped ? em_record_mapped(&machine, path) : em_record_to(&machine, path));
  printf("kept by %s, %s the caller's line\n", is_mapped ? "a mapping" : "write(2)", has_places ? "with" : "without");
  begin();
  for (uint32_t i = 0; i < KEPT / 2; i++) {
    must(em_write(has_places ? EM_HERE(&machine) : &machine, RDT, i % DESCRIPTORS));
    must(em_read(has_places ? EM_HERE(&machine) : &machine, RDT, &value));
  }
  tell("a register access that is kept", KEPT);
  if (!is_mapped) tell_size(path); /* (a mapping's file has blanks ahead) */
  if (has_places) {
    begin();
    for (int i = 0; i < TRIPS; i++) must(em_arrive(&machine, frame, FRAME, &event));
    tell("a frame of 1,514 octets that is kept", TRIPS);
  }
  em_free(&machine);
  remove(path);
}

int main(int words, char **word) {
  static const uint8_t mac[6] = {0x52, 0x54, 0x00, 0x12, 0x34, 0x56};
  static uint8_t ram[MEMORY], octets[FRAME];
  em_machine machine = EM_NO_MACHINE;
  em_note event;
  uint32_t value = 0, level = 0;
  size_t done = 0, writes = 0;
  must(em_make(&machine, MEMORY, 1048576, mac));

  begin();
  for (uint32_t i = 0; i < CALLS; i++) {
    must(em_write(&machine, RDT, i & 0xFFFF));
    must(em_read(&machine, RDT, &value));
  }
  tell("a write and a read of a register", CALLS);

  double back = 0;
  for (int i = 0; i < CALLS / BACK; i++) {
    for (uint32_t k = 0; k < BACK; k++) must(em_write(&machine, IMS, k & 0xFF));
    begin();
    must(em_back(&machine, BACK, &done));
    back += seconds() - began;
  }
  printf("%-40s %7.1f ns\n", "a step back, 20,000 in a call", back / CALLS * 1e9);

  begin();
  for (int i = 0; i < CALLS; i++) must(em_line(&machine, &level));
  tell("the interrupt line", CALLS);

  begin();
  for (int i = 0; i < SYNCS; i++) must(em_sync_out(&machine, ram, sizeof ram));
  tell("64 KiB that are the same, synced out", SYNCS);

  begin();
  for (int i = 0; i < SYNCS; i++) must(em_sync_in(&machine, ram, sizeof ram, &writes));
  tell("64 KiB that are the same, synced in", SYNCS);

  /* a frame and a descriptor, as the adapter writes them */
  begin();
  for (int i = 0; i < SYNCS; i++) {
    memset(octets, i & 0xFF, sizeof octets);
    must(em_poke(&machine, BUFFER, octets, FRAME));
    must(em_poke(&machine, RING, octets, DESCRIPTOR));
    must(em_sync_out(&machine, ram, sizeof ram));
  }
  tell("the two written, and synced out", SYNCS);

  /* the same, as the driver writes them */
  begin();
  for (int i = 0; i < SYNCS; i++) {
    memset(ram + BUFFER, i & 0xFF, FRAME);
    memset(ram + RING, i & 0xFF, DESCRIPTOR);
    must(em_sync_in(&machine, ram, sizeof ram, &writes));
  }
  tell("the two changed, and synced in", SYNCS);

  begin();
  for (uint32_t i = 0; i < CALLS; i++) must(em_write(&machine, RDT, i & 0xFF));
  tell("a write of RDT, none attached", CALLS);

  begin();
  for (int i = 0; i < TRIPS; i++) must(em_arrive(&machine, octets, FRAME, &event));
  tell("a frame of 1,514 octets, the link down", TRIPS);
  em_free(&machine);

  if (words > 1) {
    for (int way = 0; way < 4; way++) keep(word[1], way > 1, way % 2 == 0);
  }

  round_trips(262144, 60);
  round_trips(262144, FRAME);
  round_trips(LARGE, 60);
  round_trips(LARGE, FRAME);
  return (int)(value & level);
}
