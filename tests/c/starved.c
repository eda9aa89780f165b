/* Each request for memory of each call is refused in turn, once alone and once with all after it: the call that was
   refused has left the machine as it was, and the same call with memory does what it should. All other calls ask for no
   memory; of captures captures.c tries it. The last line is `N passed, M failed`. */
#include "harness.h"

#include <stdlib.h>

enum { FRAMES = 4 };

/* all that can be seen of a machine */
struct seen {
  em_register registers[EM_REGISTERS];
  size_t count, reach, sent, lengths[FRAMES];
  uint8_t memory[MEMORY], frames[FRAMES][2048];
  em_note newest[64];
  uint32_t line;
};

static struct seen *see(em_machine *machine) {
  struct seen *seen = malloc(sizeof *seen);
  if (seen == NULL) exit(1);
  memset(seen, 0, sizeof *seen);
  MUST(em_registers(machine, seen->registers, EM_REGISTERS, &seen->count) == EM_OK);
  MUST(em_peek(machine, 0, seen->memory, MEMORY) == EM_OK);
  MUST(em_line(machine, &seen->line) == EM_OK);
  MUST(em_can_go_back(machine, &seen->reach) == EM_OK);
  for (size_t k = 0; k < seen->reach && k < 64; k++) {
    em_note note;
    MUST(em_event(machine, k, &note) == EM_OK);
    memcpy(&seen->newest[k], &note, offsetof(em_note, kind) + sizeof note.kind);
  }
  MUST(em_wire_count(machine, &seen->sent) == EM_OK);
  MUST(seen->sent <= FRAMES);
  for (size_t i = 0; i < seen->sent; i++) {
    MUST(em_wire_frame(machine, i, seen->frames[i], 2048, &seen->lengths[i]) == EM_OK);
  }
  return seen;
}

static bool is_as(em_machine *machine, const struct seen *wanted) {
  struct seen *now = see(machine);
  bool same = memcmp(now, wanted, sizeof *now) == 0;
  free(now);
  return same;
}

/* ---- the calls: each tells how many events of it went well */

static uint8_t frame[1500], tagged[1500], ram[MEMORY], own[MEMORY];
static em_note event;

static uint32_t pokes(em_machine *m, size_t *done) { return (void)done, em_poke(m, 0x8000, frame, 60); }
static uint32_t pokes_over_pages(em_machine *m, size_t *done) { return (void)done, em_poke(m, 0x7FFF, frame, 1500); }
static uint32_t resets(em_machine *m, size_t *done) { return (void)done, em_write(m, CTRL, RST); }
static uint32_t arrives(em_machine *m, size_t *done) { return (void)done, em_arrive(m, tagged, 1500, &event); }
static uint32_t receives(em_machine *m, size_t *done) { return (void)done, em_rx_step(m, &event); }
static uint32_t sends(em_machine *m, size_t *done) { return (void)done, em_tx_step(m, &event); }
static uint32_t syncs_in(em_machine *m, size_t *done) { return em_sync_in(m, ram, MEMORY, done); }
static uint32_t syncs_range(em_machine *m, size_t *done) { return em_sync_in_range(m, 0x7FF0, ram, 60, done); }
static uint32_t runs_rx(em_machine *m, size_t *done) { return em_run_rx(m, SIZE_MAX, done); }
static uint32_t runs_tx(em_machine *m, size_t *done) { return em_run_tx(m, SIZE_MAX, done); }

/* ---- where they begin */

static void as_made(em_machine *machine) { OK(em_write(machine, IMS, RXT0)); }

static void with_frames(em_machine *machine) {
  set_receiving(machine);
  for (int i = 0; i < 3; i++) OK(em_arrive(machine, frame, 700, &event));
}

/* of a frame with a tag its octets without the tag are copied */
static void with_tags_taken_out(em_machine *machine) {
  with_frames(machine);
  OK(em_write(machine, VET, 0x8100));
  OK(em_write(machine, CTRL, CTRL_VME));
}

static void with_packets(em_machine *machine) {
  OK(em_poke(machine, BUFFER, frame, 1500));
  put_descriptor(machine, TX_RING, BUFFER, 500, 0);
  for (unsigned i = 1; i < FRAMES; i++) put_descriptor(machine, TX_RING + 16 * i, BUFFER, 500, EOP | RS);
  OK(em_write(machine, TDBAL, TX_RING));
  OK(em_write(machine, TDLEN, 16 * DESCRIPTORS));
  OK(em_write(machine, TCTL, TCTL_EN));
  OK(em_write(machine, TDT, FRAMES));
}

/* over memory of the caller's, in which buffers hold other octets: they are brought over */
static void attach_own(em_machine *machine) {
  static const em_region whole = {0, MEMORY, own};
  const em_ram memory = {NULL, NULL, NULL, &whole, 1};
  OK(em_sync_out(machine, own, MEMORY));
  for (size_t i = BUFFER; i < BUFFER + 3000; i++) own[i] ^= (uint8_t)(i | 1);
  OK(em_attach(machine, &memory));
}

static void with_frames_over_own(em_machine *machine) {
  with_frames(machine);
  attach_own(machine);
}

static void with_packets_over_own(em_machine *machine) {
  with_packets(machine);
  attach_own(machine);
}

static const struct {
  const char *name;
  void (*prepare)(em_machine *);
  uint32_t (*call)(em_machine *, size_t *);
  bool is_over_own;
} calls[] = {
  {"em_poke", as_made, pokes, false},
  {"em_poke over pages", as_made, pokes_over_pages, false},
  {"em_write that resets", with_frames, resets, false},
  {"em_arrive of a tagged frame", with_tags_taken_out, arrives, false},
  {"em_rx_step", with_frames, receives, false},
  {"em_tx_step", with_packets, sends, false},
  {"em_sync_in", as_made, syncs_in, false},
  {"em_sync_in_range", as_made, syncs_range, false},
  {"em_run_rx", with_frames, runs_rx, false},
  {"em_run_tx", with_packets, runs_tx, false},
  {"em_poke over attached memory", with_frames_over_own, pokes, true},
  {"em_rx_step over attached memory", with_frames_over_own, receives, true},
  {"em_tx_step over attached memory", with_packets_over_own, sends, true},
  {"em_run_rx over attached memory", with_frames_over_own, runs_rx, true},
  {"em_run_tx over attached memory", with_packets_over_own, runs_tx, true},
};

/* Both engines, so that what cannot be seen takes part: frames in the FIFO, and octets that are gathered. */
static void go_on(em_machine *machine) {
  size_t steps;
  OK(em_run_rx(machine, SIZE_MAX, &steps));
  OK(em_run_tx(machine, SIZE_MAX, &steps));
}

/* What a call leads to where memory is there, right after it, and after the engines. */
static void leads_to(size_t i, struct seen **after, struct seen **later) {
  em_machine machine = made();
  size_t done = 0;
  calls[i].prepare(&machine);
  OK(calls[i].call(&machine, &done));
  *after = see(&machine);
  go_on(&machine);
  *later = see(&machine);
  em_free(&machine);
}

/* The call with its n-th request refused; whether it made so many. */
static bool is_refused_at(size_t i, long n, const struct seen *after, const struct seen *later) {
  em_machine machine = made();
  size_t done = 0, back = 0;
  calls[i].prepare(&machine);
  struct seen *before = see(&machine);
  requests = 0;
  granted = n;
  uint32_t code = calls[i].call(&machine, &done);
  granted = -1;
  bool enough = requests <= (unsigned long)n;
  CHECK(code == (enough ? EM_OK : EM_MEMORY));
  if (!enough) {
    /* (of calls that are several events, those before the refused one stay, and are taken back here; a step over the
       caller's memory is several too) */
    size_t events = reach(&machine) - before->reach;
    CHECK(calls[i].is_over_own ? events >= done : events == done);
    CHECK(done > 0 || events == 0);
    OK(em_back(&machine, events, &back));
    CHECK(is_as(&machine, before));
    OK(calls[i].call(&machine, &done));
  }
  CHECK(is_as(&machine, after));
  go_on(&machine);
  CHECK(is_as(&machine, later));
  em_free(&machine);
  free(before);
  return !enough;
}

static void is_refused_memory(void) {
  for (size_t i = 0; i < sizeof calls / sizeof *calls; i++) {
    struct seen *after, *later;
    leads_to(i, &after, &later);
    for (int mode = 0; mode < 2; mode++) {
      long n = 0;
      once = mode == 1;
      while (n < 100 && is_refused_at(i, n, after, later)) n++;
      if (n == 0 || n == 100) printf("starved.c: %s made %ld requests\n", calls[i].name, n);
      CHECK(n > 0 && n < 100);
    }
    free(after);
    free(later);
    CHECK(blocks == 0);
  }
}

/* each of the six calls, twice */
static uint32_t make_by(int mode, em_machine *machine) {
  static const uint16_t words[64] = {0};
  const uint64_t at = UINT64_C(1) << 39;
  switch (mode / 2) {
    case 0: return em_make(machine, MEMORY, BUDGET, MAC);
    case 1: return em_make_with_eeprom(machine, MEMORY, BUDGET, words);
    case 2: return em_make_at(machine, at, at, BUDGET, MAC);
    case 3: return em_make_at_with_eeprom(machine, 0, 2 * at, BUDGET, words);
    case 4: return em_make_as(machine, EM_PROFILE_ADAPTER, at, at, BUDGET, MAC);
    default: return em_make_as_with_eeprom(machine, EM_PROFILE_ADAPTER, 0, 2 * at, BUDGET, words);
  }
}

/* a handle for which memory is refused holds no machine, and may be made again */
static void is_not_made(void) {
  for (int mode = 0; mode < 12; mode++) {
    uint32_t code = EM_MEMORY;
    long n = 0;
    em_machine machine = EM_NO_MACHINE;
    once = mode % 2 == 1;
    for (; n < 100 && code == EM_MEMORY; n++) {
      granted = n;
      code = make_by(mode, &machine);
      granted = -1;
      CHECK(code == EM_OK || (code == EM_MEMORY && !machine.made && blocks == 0));
    }
    CHECK(code == EM_OK && machine.made && n > 3);
    em_free(&machine);
    CHECK(blocks == 0);
  }
}

/* of a copy for which memory is refused nothing is left; the machine stays, and may be copied again */
static void is_not_copied(void) {
  for (int mode = 0; mode < 2; mode++) {
    em_machine machine = made(), copy = EM_NO_MACHINE;
    uint32_t code = EM_MEMORY;
    long n = 0, held = 0;
    with_frames(&machine);
    with_packets(&machine);
    OK(em_tx_step(&machine, &event));
    OK(em_write(&machine, CTRL, RST)); /* (what it puts aside takes memory of its own) */
    with_frames(&machine);
    struct seen *before = see(&machine);
    once = mode == 1;
    held = blocks;
    for (; n < 200 && code == EM_MEMORY; n++) {
      granted = n;
      code = em_copy(&machine, &copy);
      granted = -1;
      CHECK(code == EM_OK || (code == EM_MEMORY && !copy.made && blocks == held));
    }
    CHECK(code == EM_OK && n > 12 && is_as(&machine, before) && is_as(&copy, before));
    go_on(&machine);
    CHECK(is_as(&copy, before));
    free(before);
    before = see(&machine);
    go_on(&copy);
    CHECK(is_as(&copy, before));
    free(before);
    em_free(&machine);
    em_free(&copy);
    CHECK(blocks == 0);
  }
}

/* of a machine that is loaded nothing is left either where memory is refused; the octets may be loaded again */
static void is_not_loaded(void) {
  static uint8_t octets[2 * MEMORY], again[2 * MEMORY];
  em_machine machine = made(), loaded = EM_NO_MACHINE;
  size_t length = 0, more = 0;
  with_frames(&machine);
  with_packets(&machine);
  OK(em_tx_step(&machine, &event));
  OK(em_tx_step(&machine, &event));
  OK(em_rx_step(&machine, &event));
  OK(em_store(&machine, octets, sizeof octets, &length));
  for (int mode = 0; mode < 2; mode++) {
    uint32_t code = EM_MEMORY;
    long n = 0, held = blocks;
    once = mode == 1;
    for (; n < 200 && code == EM_MEMORY; n++) {
      granted = n;
      code = em_load(&loaded, octets, length);
      granted = -1;
      CHECK(code == EM_OK || (code == EM_MEMORY && !loaded.made && blocks == held));
    }
    CHECK(code == EM_OK && n > 12);
    OK(em_store(&loaded, again, sizeof again, &more));
    CHECK(more == length && memcmp(again, octets, length) == 0);
    em_free(&loaded);
    CHECK(blocks == held);
  }
  em_free(&machine);
  CHECK(blocks == 0);
}

/* an octet of 1 TiB for which memory is refused is not written, whichever of its tables and pages is wanting */
static void is_not_written_far(void) {
  const uint64_t at = (UINT64_C(1) << 40) - 1;
  uint8_t octet = 7;
  for (int mode = 0; mode < 2; mode++) {
    uint32_t code = EM_MEMORY;
    long n = 0;
    em_machine machine = EM_NO_MACHINE;
    OK(em_make_at(&machine, 0, at + 1, BUDGET, MAC));
    once = mode == 1;
    for (; n < 100 && code == EM_MEMORY; n++) {
      granted = n;
      code = em_poke(&machine, at, MAC, 1);
      granted = -1;
      OK(em_peek(&machine, at, &octet, 1));
      CHECK(code == EM_OK ? octet == MAC[0] : code == EM_MEMORY && octet == 0 && reach(&machine) == 0);
    }
    CHECK(code == EM_OK && n > 2);
    em_free(&machine);
    CHECK(blocks == 0);
  }
}

/* ---- texts, which have no bound */

static uint32_t says_ring(em_machine *m, uint8_t *out, size_t *n) { return em_ring_text(m, 1, out, MEMORY, n); }
static uint32_t says_fifo(em_machine *m, uint8_t *out, size_t *n) { return em_fifo_text(m, out, MEMORY, n); }
static uint32_t says_effect(em_machine *m, uint8_t *out, size_t *n) { return em_effect(m, 0, out, MEMORY, n); }
static uint32_t stores(em_machine *m, uint8_t *out, size_t *n) { return em_store(m, out, MEMORY, n); }

/* a list, in the place of a text: it fills as many octets of the room */
static uint32_t tells_differences(em_machine *m, uint8_t *out, size_t *n) {
  static em_difference list[64];
  size_t count = 12345;
  uint32_t code = em_differences(m, 0, list, 64, &count);
  if (code == EM_OK) {
    memcpy(out, list, count * sizeof *list);
    *n = count * sizeof *list - 1;
  }
  CHECK(code == EM_OK || count == 12345);
  return code;
}

/* a look for which memory is refused tells nothing, and leaves all as it was */
static void tells_no_text(void) {
  uint32_t (*const texts[])(em_machine *, uint8_t *, size_t *) =
    {says_ring, says_fifo, says_effect, stores, tells_differences};
  static uint8_t wanted[MEMORY], told[MEMORY];
  em_machine machine = made();
  with_frames(&machine);
  struct seen *before = see(&machine);
  for (size_t i = 0; i < sizeof texts / sizeof *texts; i++) {
    size_t length = 0;
    memset(wanted, 7, sizeof wanted);
    OK(texts[i](&machine, wanted, &length));
    for (int mode = 0; mode < 2; mode++) {
      long n = 0, held = blocks;
      uint32_t code = EM_MEMORY;
      once = mode == 1;
      for (; n < 100 && code == EM_MEMORY; n++) {
        size_t count = 12345;
        memset(told, 7, sizeof told);
        granted = n;
        code = texts[i](&machine, told, &count);
        granted = -1;
        CHECK(code == EM_OK || code == EM_MEMORY);
        CHECK(count == (code == EM_OK ? length : 12345) && told[code == EM_OK ? length + 1 : 0] == 7);
      }
      CHECK(code == EM_OK && n > 1 && memcmp(told, wanted, sizeof told) == 0 && blocks == held);
    }
  }
  CHECK(is_as(&machine, before));
  free(before);
  em_free(&machine);
}

/* these ask for no memory */
static void asks_for_none(void) {
  em_machine machine = made();
  struct seen *all = malloc(sizeof *all);
  em_watch watch = {EM_WATCH_OCTETS, 0, BUFFER, 16};
  em_change change;
  em_ring_setup ring;
  em_descriptor descriptor;
  em_range ranges[2][2];
  em_reason reason;
  em_warning warnings[10];
  em_entry entry;
  em_fifo_state fifo;
  em_field_row field;
  const em_region whole = {0, MEMORY, own};
  const em_ram memory = {NULL, NULL, NULL, &whole, 1};
  uint64_t size;
  uint32_t value, code;
  size_t count;
  CHECK(all != NULL);
  with_frames(&machine);
  with_packets(&machine);
  go_on(&machine);
  once = false;
  granted = 0;
  requests = 0;
  OK(em_arrive(&machine, frame, 1500, &event));
  for (uint32_t offset = 0; offset < 0x6000; offset += 4) {
    code = em_read(&machine, offset, &value);
    MUST(code == EM_OK || code == EM_NO_REGISTER);
    MUST(em_write(&machine, offset, offset == CTRL ? ~(uint32_t)RST : UINT32_MAX) == code);
  }
  CHECK(requests == 0);
  OK(em_write(&machine, RCTL, 0));
  OK(em_write(&machine, TCTL, 0));
  OK(em_look(&machine, ICR, &value));
  OK(em_registers(&machine, all->registers, EM_REGISTERS, &count));
  OK(em_ring(&machine, EM_RX_RING, &ring));
  REFUSED(em_ring_descriptor(&machine, EM_RX_RING, ring.count, &descriptor), EM_NO_DESCRIPTOR);
  OK(em_memory_base(&machine, &size));
  OK(em_profile(&machine, &value));
  OK(em_peek(&machine, 0, all->memory, MEMORY));
  OK(em_sync_out(&machine, all->memory, MEMORY));
  OK(em_sync_in(&machine, all->memory, MEMORY, &count));
  OK(em_sync_out_range(&machine, 8, all->memory, 60));
  OK(em_attach(&machine, &memory));
  OK(em_detach(&machine));
  OK(em_ring_needs(&machine, EM_RX_RING, ranges[0], ranges[1]));
  OK(em_written(&machine, 0, ranges[0]));
  OK(em_event(&machine, 0, &event));
  OK(em_why(&machine, &event, EM_OK, frame, 0, &reason));
  OK(em_warnings(&machine, warnings, &count));
  REFUSED(em_ring_entry(&machine, EM_RX_RING, ring.count, &entry), EM_NO_DESCRIPTOR);
  OK(em_fifo(&machine, &fifo));
  OK(em_fifo_room(&machine, &count));
  OK(em_fifo_frame(&machine, all->memory, MEMORY, &count));
  OK(em_gathered(&machine, all->memory, MEMORY, &count));
  OK(em_field(RCTL, 0, &field));
  OK(em_value_text(RCTL, 2, all->memory, MEMORY, &count));
  OK(em_memory_size(&machine, &size));
  OK(em_set_link(&machine, true));
  OK(em_rx_step(&machine, &event)); /* idle */
  OK(em_tx_step(&machine, &event));
  OK(em_line(&machine, &value));
  OK(em_loops(&machine, &value));
  OK(em_wire_count(&machine, &count));
  OK(em_wire_frame(&machine, 0, all->frames[0], 2048, &count));
  OK(em_wire_next(&machine, all->frames[0], 2048, &count));
  OK(em_let_go(&machine, &count));
  OK(em_read_sized(&machine, ICR, 4, &size));
  OK(em_write_sized(&machine, IMS, 4, LSC));
  OK(em_tag(&machine, 5));
  OK(em_event(&machine, 0, &event));
  OK(em_last_change(&machine, &watch, &change));
  OK(em_back(&machine, SIZE_MAX, &count));
  OK(em_can_go_back(&machine, &count));
  OK(em_name(ICR, all->memory, MEMORY, &count));
  OK(em_find((const uint8_t *)"ICR", 3, &value));
  OK(em_refusal(EM_RANGE, all->memory, MEMORY, &count));
  REFUSED(em_make(&machine, MEMORY, BUDGET, MAC), EM_MADE_ALREADY);
  em_free(&machine);
  granted = -1;
  CHECK(requests == 0);
  free(all);
  CHECK(blocks == 0);
}

int main(void) {
  fill(frame, sizeof frame);
  memcpy(tagged, frame, sizeof tagged);
  memcpy(tagged + 12, (uint8_t[]){0x81, 0x00, 0x01, 0x23}, 4);
  memset(ram, 9, sizeof ram);
  is_not_made();
  is_not_copied();
  is_not_loaded();
  is_not_written_far();
  is_refused_memory();
  tells_no_text();
  asks_for_none();
  return tell_counts();
}
