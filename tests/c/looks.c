/* Looks at one machine, made by several threads at once: each call that takes a `const em_machine *`. Between two rounds of
   looks the machine is changed. What they give was worked out from the manual's tables. `looks ROUNDS` has each thread
   make so many rounds (1,000). The last line is `N passed, M failed`. */
#define _POSIX_C_SOURCE 200809L
#include "bunjelav.h"

#include <pthread.h>
#include <stdio.h>
#include <stdlib.h>
#include <string.h>

enum { THREADS = 4, MEMORY = 65536, BUDGET = 65536, LENGTH = 60, RX_RING = 0x1000, TX_RING = 0x2000, BUFFER = 0x4000 };
enum { RCTL = 0x0100, TCTL = 0x0400, RDBAL = 0x2800, RDLEN = 0x2808, RDT = 0x2818, TDBAL = 0x3800, TDLEN = 0x3808 };
enum { TDT = 0x3818, RAL0 = 0x5400, EN_AND_BAM = 0x8002, EN = 0x2, EOP = 0x1, DESCRIPTORS = 8 };

static const uint8_t MAC[6] = {0x52, 0x54, 0x00, 0x12, 0x34, 0x56};
static const uint8_t FRAME[LENGTH] = {0xFF, 0xFF, 0xFF, 0xFF, 0xFF, 0xFF, 1, 2, 3};
static unsigned rounds = 1000;

/* what one thread looks at, and what it counted */
struct looker {
  const em_machine *machine;
  uint32_t tail; /* what RDT holds */
  unsigned passed, failed;
};

#define CHECK(looker, condition) \
  ((condition) ? (void)(looker)->passed++ : (void)((looker)->failed++, printf("looks.c:%d: %s\n", __LINE__, #condition)))
#define OK(call) CHECK(looker, (call) == EM_OK)

/* ---- the machine: a frame was sent, half of another is gathered, and a frame waits */

static void must(em_code code) {
  if (code == EM_OK) return;
  puts(em_strerror(code));
  exit(2);
}

static void put_descriptor(em_machine *machine, uint64_t at, uint8_t length, uint8_t command) {
  const uint8_t octets[16] = {(uint8_t)BUFFER, (uint8_t)(BUFFER >> 8), 0, 0, 0, 0, 0, 0, length, 0, 0, command};
  must(em_poke(machine, at, octets, sizeof octets));
}

static void prepare(em_machine *machine) {
  em_note event;
  size_t steps;
  must(em_make(machine, MEMORY, BUDGET, MAC));
  must(em_set_link(machine, true));
  must(em_poke(machine, BUFFER, FRAME, LENGTH));
  put_descriptor(machine, TX_RING, LENGTH, EOP);
  put_descriptor(machine, TX_RING + 16, 20, 0);
  must(em_write(machine, TDBAL, TX_RING));
  must(em_write(machine, TDLEN, 16 * DESCRIPTORS));
  must(em_write(machine, TCTL, EN));
  must(em_write(machine, TDT, 2));
  must(em_run_tx(machine, SIZE_MAX, &steps));
  for (unsigned i = 0; i < DESCRIPTORS; i++) put_descriptor(machine, RX_RING + 16 * i, 0, 0);
  must(em_write(machine, RDBAL, RX_RING));
  must(em_write(machine, RDLEN, 16 * DESCRIPTORS));
  must(em_write(machine, RDT, 7));
  must(em_write(machine, RCTL, EN_AND_BAM));
  must(em_tag(machine, 77));
  must(em_arrive(machine, FRAME, LENGTH, &event));
}

/* ---- the looks */

static void look_at_registers(const em_machine *machine, struct looker *looker) {
  em_register all[EM_REGISTERS];
  uint32_t value = 0, level = 7;
  size_t count = 0;
  OK(em_look(machine, RDT, &value));
  CHECK(looker, value == looker->tail);
  OK(em_registers(machine, all, EM_REGISTERS, &count));
  CHECK(looker, count > 10 && count <= EM_REGISTERS);
  OK(em_line(machine, &level));
  CHECK(looker, level == 0);
}

static void look_at_memory(const em_machine *machine, struct looker *looker) {
  static const uint8_t twenty[20] = {0xFF, 0xFF, 0xFF, 0xFF, 0xFF, 0xFF, 1, 2, 3};
  uint8_t octets[LENGTH] = {0}, *ram = calloc(MEMORY, 1);
  uint64_t base = 7, size = 7;
  em_range reads[2], writes[2];
  if (ram == NULL) exit(2);
  OK(em_memory_base(machine, &base));
  OK(em_memory_size(machine, &size));
  CHECK(looker, base == 0 && size == MEMORY);
  OK(em_peek(machine, BUFFER, octets, LENGTH));
  CHECK(looker, !memcmp(octets, FRAME, LENGTH));
  memset(octets, 9, LENGTH);
  OK(em_sync_out_range(machine, BUFFER, octets, LENGTH));
  CHECK(looker, !memcmp(octets, FRAME, LENGTH));
  OK(em_sync_out(machine, ram, MEMORY));
  CHECK(looker, !memcmp(ram + BUFFER, twenty, sizeof twenty));
  OK(em_ring_needs(machine, EM_RX_RING, reads, writes));
  CHECK(looker, reads[0].address == RX_RING && reads[0].length == 16 && writes[0].address == BUFFER);
  free(ram);
}

static void look_at_rings(const em_machine *machine, struct looker *looker) {
  uint8_t text[8192];
  size_t length = 0;
  em_ring_setup ring;
  em_descriptor descriptor;
  em_entry entry;
  OK(em_ring(machine, EM_RX_RING, &ring));
  CHECK(looker, ring.base == RX_RING && ring.count == DESCRIPTORS && ring.head == 0 && ring.tail == looker->tail);
  OK(em_ring_descriptor(machine, EM_RX_RING, 0, &descriptor));
  CHECK(looker, descriptor.adapters == 1 && descriptor.octets[1] == BUFFER >> 8);
  OK(em_ring_entry(machine, EM_RX_RING, 0, &entry));
  CHECK(looker, entry.adapters == 1 && entry.head == 1 && entry.trouble == EM_TROUBLE_OVER_BUFFER);
  OK(em_ring_text(machine, EM_RX_RING, text, sizeof text, &length));
  CHECK(looker, length > 0 && text[length] == 0);
}

static void look_at_frames(const em_machine *machine, struct looker *looker) {
  uint8_t frame[EM_MOST_SENT], text[4096];
  size_t count = 0, length = 0;
  em_fifo_state fifo;
  OK(em_wire_count(machine, &count));
  CHECK(looker, count == 1);
  OK(em_wire_frame(machine, 0, frame, sizeof frame, &length));
  CHECK(looker, length == LENGTH && !memcmp(frame, FRAME, LENGTH));
  OK(em_fifo(machine, &fifo));
  CHECK(looker, fifo.frames == 1 && fifo.octets == LENGTH && fifo.gathered == 20);
  OK(em_fifo_room(machine, &count));
  CHECK(looker, count == 49152 - LENGTH);
  OK(em_fifo_frame(machine, frame, sizeof frame, &length));
  CHECK(looker, length == LENGTH && !memcmp(frame, FRAME, LENGTH));
  OK(em_gathered(machine, frame, sizeof frame, &length));
  CHECK(looker, length == 20 && !memcmp(frame, FRAME, 20));
  OK(em_fifo_text(machine, text, sizeof text, &length));
  CHECK(looker, length > 0 && text[length] == 0);
}

/* of the newest event, or behind the write of RDT of the one before it */
static void look_at_events(const em_machine *machine, struct looker *looker) {
  const em_watch watch = {EM_WATCH_FRAMES, 0, 0, 0};
  const size_t k = looker->tail == 7 ? 0 : 1;
  uint8_t text[4096];
  size_t count = 0, length = 0;
  em_note event;
  em_range written[2];
  em_change change;
  em_reason reason;
  em_warning warnings[10];
  em_difference differences[64];
  OK(em_can_go_back(machine, &count));
  CHECK(looker, count > 10);
  OK(em_event(machine, k, &event));
  CHECK(looker, event.kind == EM_STORED && event.tag == 77 && event.length == LENGTH);
  OK(em_written(machine, k, written));
  CHECK(looker, written[0].length == 0 && written[1].length == 0);
  OK(em_last_change(machine, &watch, &change));
  CHECK(looker, change.back == k + 1 && change.value == 0);
  OK(em_why(machine, &event, EM_OK, FRAME, LENGTH, &reason));
  CHECK(looker, reason.rule == 0);
  OK(em_warnings(machine, warnings, &count));
  CHECK(looker, count == 2 * k);
  if (k) CHECK(looker, warnings[0].rule == EM_WARN_BUFFERS_OVERLAP && warnings[1].rule == EM_WARN_TAIL_PAST_HEAD);
  OK(em_differences(machine, k, differences, 64, &count));
  CHECK(looker, count > 0 && differences[count - 1].kind == EM_WATCH_FRAMES && differences[count - 1].now == 1);
  OK(em_effect(machine, k, text, sizeof text, &length));
  CHECK(looker, length > 0 && text[length] == 0);
}

/* a copy, which goes back to where no frame waits */
static void look_at_a_copy(const em_machine *machine, struct looker *looker) {
  const size_t k = looker->tail == 7 ? 1 : 2;
  em_machine copy = EM_NO_MACHINE;
  em_fifo_state fifo;
  size_t done = 0;
  OK(em_copy(machine, &copy));
  OK(em_back(&copy, k, &done));
  OK(em_fifo(&copy, &fifo));
  CHECK(looker, done == k && fifo.frames == 0);
  em_free(&copy);
}

/* the machine as octets, of which another one is made */
static void look_at_its_octets(const em_machine *machine, struct looker *looker) {
  uint8_t *octets = malloc(MEMORY);
  em_machine loaded = EM_NO_MACHINE;
  uint32_t value = 0;
  size_t length = 0;
  if (octets == NULL) exit(2);
  OK(em_store(machine, octets, MEMORY, &length));
  OK(em_load(&loaded, octets, length));
  OK(em_look(&loaded, RDT, &value));
  CHECK(looker, value == looker->tail);
  em_free(&loaded);
  free(octets);
}

static void *looks(void *given) {
  struct looker *looker = given;
  for (unsigned round = 0; round < rounds; round++) {
    look_at_registers(looker->machine, looker);
    if (round % 16 == 0) look_at_memory(looker->machine, looker);
    if (round % 16 == 0) look_at_a_copy(looker->machine, looker);
    if (round % 16 == 0) look_at_its_octets(looker->machine, looker);
    look_at_rings(looker->machine, looker);
    look_at_frames(looker->machine, looker);
    look_at_events(looker->machine, looker);
  }
  return NULL;
}

/* ---- all threads at once, and once more behind a change */

static void look_at_once(struct looker *lookers, uint32_t tail) {
  pthread_t threads[THREADS];
  for (unsigned i = 0; i < THREADS; i++) {
    lookers[i].tail = tail;
    if (pthread_create(&threads[i], NULL, looks, &lookers[i]) != 0) exit(2);
  }
  for (unsigned i = 0; i < THREADS; i++) pthread_join(threads[i], NULL);
}

int main(int words, char **word) {
  em_machine machine = EM_NO_MACHINE;
  struct looker lookers[THREADS] = {{NULL, 0, 0, 0}};
  unsigned passed = 0, failed = 0;
  if (words > 1) rounds = (unsigned)strtoul(word[1], NULL, 10);
  prepare(&machine);
  for (unsigned i = 0; i < THREADS; i++) lookers[i].machine = &machine;
  look_at_once(lookers, 7);
  must(em_write(&machine, RDT, 6));
  look_at_once(lookers, 6);
  em_free(&machine);
  for (unsigned i = 0; i < THREADS; i++) {
    passed += lookers[i].passed;
    failed += lookers[i].failed;
  }
  printf("%u passed, %u failed\n", passed, failed);
  return failed != 0;
}
