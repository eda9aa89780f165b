/* Memory of the caller's own: over functions and over regions, what refuses, and what each refusal leaves. Random calls
   over a machine with attached memory, and over one without to which the same octets are given, come to the same. The
   last line is `N passed, M failed`. */
#include "harness.h"

#include <stdlib.h>

enum { TX_BUFFER = 0xA000 };

static uint8_t ram[MEMORY];
static uint64_t base; /* where it lies, and with it guest memory */
static em_region whole = {0, MEMORY, ram};

/* ---- functions that fail, refuse, or call the library */

static struct {
  uint64_t from, to;        /* no such octets, and what was read before is given all the same */
  bool reads_alone, writes_alone;
  uint64_t log[64][2];      /* what was asked for: the address, and the length; a write has bit 63 */
  size_t asked;
  em_machine *calls_back;
  bool is_well;             /* each call of the handle was refused that changes it, and the looks were answered */
} there;

static bool has(uint64_t address, size_t length) {
  bool is_none = address < there.to && address + length > there.from;
  return !is_none && address >= base && address - base <= MEMORY && length <= MEMORY - (address - base);
}

static void ask(uint64_t address, size_t length, bool is_write) {
  if (there.asked == 64) return;
  there.log[there.asked][0] = address;
  there.log[there.asked++][1] = length | (uint64_t)is_write << 63;
}

/* Each call with the handle, within a function that the handle's call made. */
static bool is_busy(em_machine *m) {
  const em_ram none = {NULL, NULL, NULL, &whole, 1};
  const uint16_t words[64] = {0};
  uint8_t octets[16] = {0};
  em_range ranges[2];
  em_note note;
  uint32_t value;
  uint64_t size;
  size_t n;
  uint32_t refused[] = {
    em_make(m, MEMORY, BUDGET, MAC), em_make_with_eeprom(m, MEMORY, BUDGET, words), em_read(m, STATUS, &value),
    em_make_at(m, 4096, MEMORY, BUDGET, MAC), em_make_at_with_eeprom(m, 4096, MEMORY, BUDGET, words),
    em_make_as(m, EM_PROFILE_ADAPTER, 0, MEMORY, BUDGET, MAC),
    em_make_as_with_eeprom(m, EM_PROFILE_ADAPTER, 0, MEMORY, BUDGET, words),
    em_write(m, IMS, 1), em_poke(m, 0, octets, 1), em_sync_in(m, ram, MEMORY, &n),
    em_sync_in_range(m, 0, octets, 1, &n), em_arrive(m, ram, 60, &note), em_set_link(m, false), em_rx_step(m, &note),
    em_tx_step(m, &note), em_run_rx(m, 1, &n), em_run_tx(m, 1, &n), em_back(m, 1, &n), em_tag(m, 5),
    em_read_sized(m, STATUS, 4, &size), em_write_sized(m, IMS, 4, 1), em_wire_next(m, octets, sizeof octets, &n),
    em_let_go(m, &n), em_let_go_always(m, true), em_attach(m, &none), em_detach(m), em_copy(m, m),
    em_load(m, octets, sizeof octets)
  };
  for (size_t i = 0; i < sizeof refused / sizeof *refused; i++) {
    if (refused[i] != EM_BUSY) return false;
  }
  em_free(m);
  em_machine copy = EM_NO_MACHINE;
  if (em_copy(m, &copy) != EM_OK || em_look(&copy, STATUS, &value) != EM_OK) return false;
  em_free(&copy);
  if (em_store(m, octets, 0, &n) != EM_ROOM) return false;
  return em_look(m, STATUS, &value) == EM_OK && value == 0x83 && em_peek(m, 0, octets, 1) == EM_OK
    && em_memory_size(m, &size) == EM_OK && em_can_go_back(m, &n) == EM_OK && em_written(m, 0, ranges) == EM_OK
    && em_pcap_write(m, "/dev/null", NULL) == EM_OK;
}

static bool read_there(void *context, uint64_t address, uint8_t *out, size_t length) {
  CHECK(context == &there);
  ask(address, length, false);
  if (there.calls_back) there.is_well = is_busy(there.calls_back);
  if (!there.writes_alone && !has(address, length)) return false;
  memcpy(out, ram + (address - base), length);
  return true;
}

static bool write_there(void *context, uint64_t address, const uint8_t *octets, size_t length) {
  CHECK(context == &there);
  ask(address, length, true);
  if (there.calls_back) there.is_well &= is_busy(there.calls_back);
  if (!there.reads_alone && !has(address, length)) return false;
  memcpy(ram + (address - base), octets, length);
  return true;
}

static const em_ram by_calls = {&there, read_there, write_there, NULL, 0};
static const em_ram by_regions = {NULL, NULL, NULL, &whole, 1};

/* ---- a machine with both rings, over ram */

static void put_in_ram(uint64_t at, uint64_t buffer, unsigned length, uint8_t command) {
  uint8_t octets[16] = {0};
  for (int i = 0; i < 8; i++) octets[i] = (uint8_t)(buffer >> 8 * i);
  octets[8] = (uint8_t)length;
  octets[9] = (uint8_t)(length >> 8);
  octets[11] = command;
  memcpy(ram + at, octets, sizeof octets);
}

/* Where the rings lie; RDBAH and TDBAH are 0 already, where memory is below 4 GiB. */
static void set_bases(em_machine *machine) {
  OK(em_write(machine, RDBAL, (uint32_t)base + RX_RING));
  OK(em_write(machine, TDBAL, (uint32_t)base + TX_RING));
  if (base >> 32 == 0) return;
  OK(em_write(machine, RDBAL + 4, (uint32_t)(base >> 32)));
  OK(em_write(machine, TDBAL + 4, (uint32_t)(base >> 32)));
}

static em_machine made_there(void) {
  em_machine machine = EM_NO_MACHINE;
  OK(em_make_at(&machine, base, MEMORY, BUDGET, MAC));
  return machine;
}

static em_machine attached(const em_ram *memory) {
  em_machine machine = made_there();
  memset(&there, 0, sizeof there);
  for (size_t i = 0; i < MEMORY; i++) ram[i] = (uint8_t)(i * 7 + i / 256);
  OK(em_attach(&machine, memory));
  OK(em_set_link(&machine, true));
  for (unsigned i = 0; i < DESCRIPTORS; i++) {
    put_in_ram(RX_RING + 16 * i, base + BUFFER + 0x800 * i, 0, 0);
    put_in_ram(TX_RING + 16 * i, base + TX_BUFFER + 0x800 * i, 100, EOP | RS);
  }
  set_bases(&machine);
  OK(em_write(&machine, RDLEN, 16 * DESCRIPTORS));
  OK(em_write(&machine, RDT, 7));
  OK(em_write(&machine, TDLEN, 16 * DESCRIPTORS));
  OK(em_write(&machine, RCTL, RCTL_EN | RCTL_BAM));
  OK(em_write(&machine, TCTL, TCTL_EN));
  CHECK(there.asked == 0);
  return machine;
}

static void receive_one(em_machine *machine, size_t length) {
  uint8_t frame[2000];
  em_note event;
  fill(frame, length);
  OK(em_arrive(machine, frame, length, &event));
  CHECK(event.kind == EM_STORED);
}

/* what is asked of the caller, in this order */
static void asks_for_what_it_needs(void) {
  em_machine machine = attached(&by_calls);
  const uint64_t out = (uint64_t)1 << 63;
  em_note event;
  uint32_t head;
  OK(em_rx_step(&machine, &event));
  OK(em_tx_step(&machine, &event));
  CHECK(event.kind == EM_TX_IDLE && there.asked == 0);
  receive_one(&machine, 60);
  CHECK(there.asked == 0);
  OK(em_rx_step(&machine, &event));
  CHECK(event.kind == EM_WROTE && there.asked == 4);
  const uint64_t received[4][2] = {{RX_RING, 16}, {BUFFER, 60}, {BUFFER, 60 | out}, {RX_RING + 8, 8 | out}};
  CHECK(!memcmp(there.log, received, sizeof received));
  CHECK(ram[BUFFER] == 0xFF && ram[BUFFER + 59] == 59 && ram[RX_RING + 8] == 60 && ram[RX_RING + 12] == 0x07);
  CHECK(ram[BUFFER + 60] == (uint8_t)((BUFFER + 60) * 7 + (BUFFER + 60) / 256));
  OK(em_look(&machine, RDH, &head));
  CHECK(head == 1);
  there.asked = 0;
  OK(em_write(&machine, TDT, 1));
  CHECK(there.asked == 0);
  OK(em_tx_step(&machine, &event));
  CHECK(event.kind == EM_SENT && event.length == 100 && there.asked == 3);
  const uint64_t sent[3][2] = {{TX_RING, 16}, {TX_BUFFER, 100}, {TX_RING + 12, 1 | out}};
  CHECK(!memcmp(there.log, sent, sizeof sent));
  CHECK(ram[TX_RING + 12] == DD);
  em_free(&machine);
}

/* what is brought over is an event, under the tag; where it is the same already there is none */
static void notes_what_it_brings(void) {
  em_machine machine = attached(&by_calls);
  em_watch watch = {EM_WATCH_OCTETS, 0, RX_RING, 8};
  em_change change;
  em_note event;
  em_range written[2];
  size_t before, after, done;
  receive_one(&machine, 60);
  before = reach(&machine);
  OK(em_tag(&machine, 77));
  OK(em_rx_step(&machine, &event));
  after = reach(&machine);
  CHECK(after == before + 3 && event.tag == 77);
  OK(em_last_change(&machine, &watch, &change));
  OK(em_event(&machine, change.back - 1, &event));
  CHECK(event.kind == EM_POKE && event.tag == 77 && event.at == RX_RING + 1 && event.length == 1);
  OK(em_written(&machine, 0, written));
  CHECK(written[0].address == BUFFER && written[0].length == 60);
  CHECK(written[1].address == RX_RING + 8 && written[1].length == 8);
  OK(em_written(&machine, change.back - 1, written));
  CHECK(written[0].address == RX_RING + 1 && written[0].length == 1 && written[1].length == 0);
  OK(em_back(&machine, 1, &done));
  receive_one(&machine, 60);
  before = reach(&machine);
  OK(em_rx_step(&machine, &event)); /* over octets that were brought before, and put back */
  CHECK(reach(&machine) == before + 1);
  em_free(&machine);
}

/* ---- refusals */

/* all that can be seen of a machine */
static void see(em_machine *machine, uint8_t *memory, size_t *count, uint32_t heads[2]) {
  OK(em_peek(machine, 0, memory, MEMORY));
  OK(em_can_go_back(machine, count));
  OK(em_look(machine, RDH, &heads[0]));
  OK(em_look(machine, 0x3810, &heads[1]));
}

/* A step is refused, and leaves the machine as it was; without the cause it is made. */
static void refuses_step(bool receives, uint64_t from, uint64_t to, bool reads, uint32_t why) {
  static uint8_t before[MEMORY], after[MEMORY], mine[MEMORY];
  em_machine machine = attached(&by_calls);
  em_note event = {9, 9, 9, 9, 9, 9, 9};
  uint32_t heads[2], now[2];
  size_t count, then, done = 9;
  receive_one(&machine, 60);
  OK(em_write(&machine, TDT, 1));
  see(&machine, before, &count, heads);
  memcpy(mine, ram, MEMORY);
  there.from = from, there.to = to, there.reads_alone = reads, there.writes_alone = !reads;
  REFUSED(receives ? em_rx_step(&machine, &event) : em_tx_step(&machine, &event), why);
  CHECK(event.tag == 9 && event.kind == 9);
  see(&machine, after, &then, now);
  CHECK(!memcmp(before, after, MEMORY) && then == count && now[0] == heads[0] && now[1] == heads[1]);
  if (reads) CHECK(!memcmp(mine, ram, MEMORY));
  REFUSED(receives ? em_run_rx(&machine, 5, &done) : em_run_tx(&machine, 5, &done), why);
  CHECK(done == 0 && reach(&machine) == count);
  there.from = there.to = 0;
  OK(receives ? em_run_rx(&machine, 5, &done) : em_run_tx(&machine, 5, &done));
  CHECK(done == 1);
  em_free(&machine);
}

static void refuses_each_range(void) {
  refuses_step(true, RX_RING, RX_RING + 1, true, EM_UNREAD);
  refuses_step(true, BUFFER + 59, BUFFER + 60, true, EM_UNREAD);
  refuses_step(true, BUFFER, BUFFER + 1, false, EM_UNWRITTEN);
  CHECK(ram[RX_RING + 12] == 0x07);
  refuses_step(true, RX_RING + 15, RX_RING + 16, false, EM_UNWRITTEN);
  refuses_step(false, TX_RING + 15, TX_RING + 16, true, EM_UNREAD);
  refuses_step(false, TX_BUFFER + 99, TX_BUFFER + 100, true, EM_UNREAD);
  refuses_step(false, TX_RING + 12, TX_RING + 13, false, EM_UNWRITTEN);
}

/* of a run the steps before stay; of a step that the model refuses nothing does */
static void keeps_the_steps_before(void) {
  em_machine machine = attached(&by_calls);
  em_note event;
  size_t done = 9, count;
  for (int i = 0; i < 3; i++) receive_one(&machine, 60);
  there.from = BUFFER + 0x1000, there.to = there.from + 1, there.reads_alone = true;
  REFUSED(em_run_rx(&machine, SIZE_MAX, &done), EM_UNREAD);
  CHECK(done == 2 && ram[RX_RING + 16 + 12] == 0x07);
  there.from = there.to = 0;
  put_in_ram(RX_RING + 32, MEMORY - 59, 0, 0);
  count = reach(&machine);
  REFUSED(em_rx_step(&machine, &event), EM_DMA_RANGE);
  CHECK(reach(&machine) == count);
  put_in_ram(TX_RING, TX_BUFFER, 60, DEXT);
  OK(em_write(&machine, TDT, 1));
  REFUSED(em_tx_step(&machine, &event), EM_EXTENDED);
  CHECK(reach(&machine) == count + 1);
  put_in_ram(RX_RING + 32, MEMORY - 60, 0, 0);
  OK(em_run_rx(&machine, SIZE_MAX, &done));
  CHECK(done == 1 && ram[MEMORY - 1] == 59);
  em_free(&machine);
}

static void refuses_calls_back(void) {
  em_machine machine = attached(&by_calls);
  em_note event;
  size_t done;
  receive_one(&machine, 60);
  there.calls_back = &machine;
  OK(em_rx_step(&machine, &event));
  CHECK(there.is_well && event.kind == EM_WROTE);
  there.is_well = false;
  OK(em_poke(&machine, 0, MAC, 6));
  OK(em_back(&machine, 2, &done));
  there.is_well = true;
  OK(em_back(&machine, 1, &done));
  CHECK(there.is_well && done == 1);
  there.calls_back = NULL;
  OK(em_read(&machine, STATUS, &event.value));
  em_free(&machine);
  CHECK(!machine.made && machine.state == 0);
}

/* A copy has octets of its own, those that the machine has. */
static void copies_no_memory(void) {
  em_machine machine = attached(&by_calls), copy = EM_NO_MACHINE;
  uint8_t octets[6];
  em_note event;
  size_t done, asked;
  receive_one(&machine, 60);
  OK(em_rx_step(&machine, &event));
  OK(em_copy(&machine, &copy));
  asked = there.asked;
  OK(em_poke(&copy, 0x3000, MAC, 6));
  OK(em_back(&copy, 2, &done));
  CHECK(done == 2 && there.asked == asked && ram[0x3000] != MAC[0]);
  /* the step that was taken back wrote to a buffer; the caller's memory has still what it wrote */
  OK(em_peek(&copy, BUFFER, octets, 6));
  CHECK(octets[0] != 0xFF && ram[BUFFER] == 0xFF);
  OK(em_back(&copy, SIZE_MAX, &done));
  OK(em_back(&machine, 1, &done));
  CHECK(there.asked > asked && ram[BUFFER] != 0xFF);
  /* memory of its own can be attached to it */
  OK(em_attach(&copy, &by_regions));
  OK(em_poke(&copy, 0x3000, MAC, 6));
  CHECK(ram[0x3000] == MAC[0]);
  em_free(&copy);
  em_free(&machine);
}

static void refuses_what_is_no_memory(void) {
  em_machine machine = EM_NO_MACHINE;
  const em_ram wrong[] = {{NULL, read_there, NULL, &whole, 1}, {NULL, NULL, write_there, &whole, 1},
                          {NULL, NULL, NULL, &whole, 0}, {NULL, NULL, NULL, NULL, 0}};
  REFUSED(em_attach(&machine, &by_regions), EM_NOT_MADE);
  REFUSED(em_detach(&machine), EM_NOT_MADE);
  machine = made();
  for (int i = 0; i < 4; i++) REFUSED(em_attach(&machine, &wrong[i]), EM_NO_RAM);
  OK(em_detach(&machine));
  OK(em_attach(&machine, &by_regions));
  OK(em_attach(&machine, &by_calls)); /* in its place */
  memset(&there, 0, sizeof there);
  OK(em_poke(&machine, 16, MAC, 6));
  CHECK(there.asked == 1 && !memcmp(ram + 16, MAC, 6));
  OK(em_detach(&machine));
  ram[16] = 0;
  OK(em_poke(&machine, 16, MAC, 6));
  CHECK(there.asked == 1 && ram[16] == 0);
  OK(em_attach(&machine, &by_calls));
  em_free(&machine);
  machine = made(); /* with none attached */
  OK(em_poke(&machine, 16, MAC, 6));
  CHECK(there.asked == 1);
  em_free(&machine);
}

static void pokes(void) {
  em_machine machine = attached(&by_calls);
  uint8_t octets[6];
  size_t count = reach(&machine), done;
  REFUSED(em_poke(&machine, MEMORY - 5, MAC, 6), EM_RANGE);
  REFUSED(em_poke(&machine, 0, MAC, 0), EM_LENGTH);
  CHECK(there.asked == 0);
  there.from = 0x3003, there.to = 0x3004;
  REFUSED(em_poke(&machine, 0x3000, MAC, 6), EM_UNWRITTEN);
  CHECK(reach(&machine) == count && ram[0x3000] != MAC[0]);
  there.from = there.to = 0;
  OK(em_poke(&machine, 0x3000, MAC, 6));
  OK(em_peek(&machine, 0x3000, octets, 6));
  CHECK(!memcmp(ram + 0x3000, MAC, 6) && !memcmp(octets, MAC, 6));
  /* what software wrote stays there */
  OK(em_back(&machine, 1, &done));
  OK(em_peek(&machine, 0x3000, octets, 6));
  CHECK(!memcmp(ram + 0x3000, MAC, 6) && octets[1] == 0);
  em_free(&machine);
}

/* ---- steps back */

static void goes_back(void) {
  static uint8_t mine[MEMORY];
  em_machine machine = attached(&by_calls);
  size_t from, done;
  em_note event;
  receive_one(&machine, 60);
  receive_one(&machine, 1500);
  put_in_ram(TX_RING, TX_BUFFER, 100, RS); /* fetched, and sent with the next */
  OK(em_write(&machine, TDT, 3));
  memcpy(mine, ram, MEMORY);
  from = reach(&machine);
  OK(em_run_rx(&machine, SIZE_MAX, &done));
  OK(em_run_tx(&machine, SIZE_MAX, &done));
  CHECK(memcmp(mine, ram, MEMORY));
  size_t events = reach(&machine) - from;
  /* the driver's own octets stay; one that lies where the adapter wrote does not */
  ram[0x100] = 1, ram[BUFFER] = 2, mine[0x100] = 1;
  OK(em_back(&machine, events, &done));
  CHECK(done == events && !memcmp(mine, ram, MEMORY));
  OK(em_run_rx(&machine, SIZE_MAX, &done));
  CHECK(done == 2 && ram[BUFFER] == 0xFF && ram[RX_RING + 12] == 0x07 && ram[RX_RING + 28] == 0x07);
  /* the same steps again bring the same again */
  OK(em_run_tx(&machine, SIZE_MAX, &done));
  CHECK(done == 3 && reach(&machine) == from + events);
  /* a refused write ends it, behind the step whose octets were refused */
  there.from = RX_RING + 8, there.to = RX_RING + 9;
  REFUSED(em_back(&machine, SIZE_MAX, &done), EM_UNWRITTEN);
  CHECK(done < events && ram[RX_RING + 12] == 0x07);
  there.from = there.to = 0;
  OK(em_back(&machine, SIZE_MAX, &done));
  CHECK(reach(&machine) == 0);
  OK(em_back(&machine, 1, &done));
  CHECK(done == 0);
  OK(em_rx_step(&machine, &event));
  em_free(&machine);
}

/* ---- regions */

static void goes_over_regions(void) {
  static uint8_t low[0x4020], high[0x4000];
  /* the first buffer lies in two of them, and behind them is none; a later one of the same octets is not used */
  const em_region parts[] = {{0x4020, 0x4000, high}, {0, 0x4020, low}, {0, MEMORY, ram}};
  em_ram memory = {NULL, NULL, NULL, parts, 2};
  em_machine machine = attached(&by_regions);
  em_note event;
  OK(em_attach(&machine, &memory));
  memset(low, 0, sizeof low), memset(high, 0, sizeof high);
  low[RX_RING + 1] = 0x40, low[RX_RING + 17] = 0x7F, low[RX_RING + 16] = 0xE4, low[RX_RING + 33] = 0x80;
  receive_one(&machine, 60);
  OK(em_rx_step(&machine, &event));
  CHECK(low[BUFFER] == 0xFF && low[BUFFER + 31] == 31 && high[0] == 32 && high[27] == 59 && high[28] == 0);
  CHECK(low[RX_RING + 12] == 0x07 && ram[RX_RING + 12] == 0);
  receive_one(&machine, 60);
  OK(em_rx_step(&machine, &event)); /* at 7FE4h, up to its end */
  CHECK(high[0x7FE4 - 0x4020] == 0xFF && high[0x3FFF] == 59);
  receive_one(&machine, 60);
  low[RX_RING + 32] = 0x00; /* 8000h: 32 octets are there */
  REFUSED(em_rx_step(&machine, &event), EM_UNREAD);
  high[0x3FFF] = 1; /* nothing is written where not all can be */
  REFUSED(em_poke(&machine, 0x801F, MAC, 2), EM_UNWRITTEN);
  CHECK(high[0x3FFF] == 1);
  memory.count = 3;
  OK(em_attach(&machine, &memory));
  OK(em_rx_step(&machine, &event));
  CHECK(high[0x8000 - 0x4020] == 0xFF && high[0x3FFF] == 31 && ram[0x8020] == 32);
  REFUSED(em_poke(&machine, MEMORY, MAC, 1), EM_RANGE);
  em_free(&machine);
}

/* ---- ranges */

static void tells_needs(void) {
  em_machine machine = made();
  em_range reads[2] = {{7, 7}, {7, 7}}, writes[2] = {{7, 7}, {7, 7}};
  em_note event;
  size_t done;
  REFUSED(em_ring_needs(&machine, 0, reads, writes), EM_NO_RING);
  REFUSED(em_ring_needs(&machine, 3, reads, writes), EM_NO_RING);
  CHECK(reads[1].length == 7 && writes[1].address == 7);
  REFUSED(em_written(&machine, 0, writes), EM_NO_EVENT);
  set_receiving(&machine);
  OK(em_ring_needs(&machine, EM_RX_RING, reads, writes));
  CHECK(!reads[0].length && !reads[1].length && !writes[0].length && !writes[1].address);
  receive_one(&machine, 300);
  size_t count = reach(&machine);
  OK(em_ring_needs(&machine, EM_RX_RING, reads, writes));
  CHECK(reads[0].address == RX_RING && reads[0].length == 16 && reads[1].length == 0);
  CHECK(writes[0].address == BUFFER && writes[0].length == 300);
  CHECK(writes[1].address == RX_RING + 8 && writes[1].length == 8 && reach(&machine) == count);
  OK(em_rx_step(&machine, &event));
  em_range written[2];
  OK(em_written(&machine, 0, written));
  CHECK(!memcmp(written, writes, sizeof written));
  OK(em_write(&machine, IMS, 1));
  OK(em_written(&machine, 0, written));
  CHECK(written[0].length == 0 && written[1].length == 0);
  put_descriptor(&machine, TX_RING, BUFFER, 60, EOP);
  put_descriptor(&machine, TX_RING + 16, BUFFER, 0, EOP | RS);
  put_descriptor(&machine, TX_RING + 32, MEMORY, 1, EOP);
  OK(em_write(&machine, TDBAL, TX_RING));
  OK(em_write(&machine, TDLEN, 128));
  OK(em_write(&machine, TCTL, TCTL_EN));
  OK(em_write(&machine, TDT, 4));
  OK(em_ring_needs(&machine, EM_TX_RING, reads, writes));
  CHECK(reads[1].address == BUFFER && reads[1].length == 60 && writes[0].length == 0);
  OK(em_run_tx(&machine, 1, &done));
  OK(em_ring_needs(&machine, EM_TX_RING, reads, writes));
  CHECK(reads[0].address == TX_RING + 16 && reads[1].length == 0);
  CHECK(writes[0].address == TX_RING + 28 && writes[0].length == 1 && writes[1].length == 0);
  OK(em_run_tx(&machine, 1, &done));
  OK(em_written(&machine, 0, written));
  CHECK(!memcmp(written, writes, sizeof written));
  OK(em_ring_needs(&machine, EM_TX_RING, reads, writes)); /* its buffer leaves memory */
  CHECK(reads[0].address == TX_RING + 32 && reads[1].length == 0 && writes[0].length == 0);
  em_free(&machine);
}

static void syncs_ranges(void) {
  em_machine machine = made();
  uint8_t octets[16385] = {0}, out[5000];
  em_note event;
  size_t writes = 7;
  REFUSED(em_sync_in_range(&machine, 0, octets, 16385, &writes), EM_LENGTH);
  REFUSED(em_sync_in_range(&machine, MEMORY - 15, octets, 16, &writes), EM_RANGE);
  REFUSED(em_sync_in_range(&machine, UINT64_MAX, octets, 2, &writes), EM_RANGE);
  REFUSED(em_sync_out_range(&machine, MEMORY - 15, octets, 16), EM_RANGE);
  CHECK(writes == 7 && reach(&machine) == 0);
  OK(em_sync_in_range(&machine, MEMORY, octets, 0, &writes));
  CHECK(writes == 0);
  OK(em_sync_in_range(&machine, 0xFF0, octets, 16384, &writes));
  CHECK(writes == 0 && reach(&machine) == 0);
  for (size_t length = 16; length <= 16384; length *= 4) { /* 16, 64, 256, 1,024, 4,096, 16,384 */
    octets[3]++, octets[length - 2]++;
    OK(em_sync_in_range(&machine, 0xFF0, octets, length, &writes));
    OK(em_event(&machine, 0, &event));
    CHECK(writes == 1 && event.kind == EM_POKE && event.at == 0xFF3 && event.length == length - 4);
    OK(em_sync_in_range(&machine, 0xFF0, octets, length, &writes));
    CHECK(writes == 0);
  }
  CHECK(reach(&machine) == 6);
  memset(out, 9, sizeof out);
  OK(em_sync_out_range(&machine, 0xFF0, out, sizeof out));
  CHECK(!memcmp(out, octets, sizeof out));
  OK(em_sync_out_range(&machine, MEMORY, out, 0));
  /* of an attached machine the two are about its own copy */
  OK(em_attach(&machine, &by_calls));
  memset(&there, 0, sizeof there);
  octets[0] = 5;
  OK(em_sync_in_range(&machine, 0, octets, 1, &writes));
  CHECK(writes == 1 && there.asked == 0);
  em_free(&machine);
}

/* ---- random calls, over attached memory and over a private one with the same octets */

static uint32_t seed = 1;

static uint32_t below(uint32_t n) {
  seed = seed * 1664525u + 1013904223u;
  return (uint32_t)((uint64_t)seed * n >> 32);
}

/* Software writes the same to both: to ram, and as a memory write. */
static void store(em_machine *other, uint64_t at, const uint8_t *octets, size_t length) {
  size_t writes;
  memcpy(ram + at, octets, length);
  MUST(em_sync_in_range(other, base + at, octets, length, &writes) == EM_OK);
}

static void store_descriptor(em_machine *other) {
  uint8_t octets[16] = {0};
  bool receives = below(2);
  uint64_t buffer = below(20) ? 0x3000 + below(0x8000) : below(2) ? MEMORY - below(70) : RX_RING + below(64);
  unsigned length = below(8) ? below(200) : below(3000);
  for (int i = 0; i < 8; i++) octets[i] = (uint8_t)((base + buffer) >> 8 * i);
  if (below(40) == 0) octets[6] = 1;
  octets[8] = (uint8_t)length, octets[9] = (uint8_t)(length >> 8);
  octets[11] = (uint8_t)((below(4) ? EOP : 0) | (below(2) ? RS : 0) | (below(30) ? 0 : DEXT));
  store(other, (receives ? RX_RING : TX_RING) + 16 * below(DESCRIPTORS), octets, 16);
}

/* the newest event that is no memory write */
static em_note newest(em_machine *machine) {
  em_note note = {0, 0, 0, 0, 0, 0, 0};
  for (size_t k = 0; em_event(machine, k, &note) == EM_OK && note.kind == EM_POKE; k++) continue;
  return note;
}

static bool is_one(em_note a, em_note b) {
  return a.at == b.at && a.length == b.length && a.value == b.value && a.kind == b.kind && a.octets == b.octets &&
         a.buffer == b.buffer;
}

static void performs(em_machine *machine, uint32_t what, uint32_t a, uint32_t b, uint32_t told[2]) {
  static const uint32_t offsets[] = {RDT, TDT, RCTL, TCTL, ICR, IMS, RDH, 0x3810};
  static const uint32_t values[] = {RCTL_EN | RCTL_BAM, RCTL_EN | RCTL_BAM | 0x10000, RCTL_EN | RCTL_UPE | 0x2030000};
  static const uint32_t enabled[] = {TCTL_EN, TCTL_EN | 8, 0};
  uint8_t frame[1600];
  em_note note = {0, 0, 0, 0, 0, 0, 0};
  size_t done = 0;
  uint32_t at = offsets[a % 8], value = at == RCTL ? values[b % 3] : at == TCTL ? enabled[b % 3] : b % 9;
  fill(frame, sizeof frame);
  frame[20] = (uint8_t)b;
  switch (what) {
    case 0: told[0] = em_write(machine, at, value); break;
    case 1: told[0] = em_read(machine, at, &told[1]); return;
    case 2: told[0] = em_arrive(machine, frame, 60 + a % 1500, &note); break;
    case 3: told[0] = em_rx_step(machine, &note); break;
    case 4: told[0] = em_tx_step(machine, &note); break;
    case 5: told[0] = em_run_rx(machine, a % 5, &done); break;
    case 6: told[0] = em_run_tx(machine, a % 5, &done); break;
    default: told[0] = em_poke(machine, base + 0x3000 + a % 0x8000, frame, 1 + b % 200); break;
  }
  told[1] = note.kind + (uint32_t)done * 100;
}

static void are_one(em_machine *one, em_machine *other) {
  static uint8_t memory[MEMORY];
  static em_register a[EM_REGISTERS], b[EM_REGISTERS];
  size_t n = 0, m = 0;
  MUST(em_peek(other, base, memory, MEMORY) == EM_OK);
  MUST(!memcmp(memory, ram, MEMORY));
  MUST(em_registers(one, a, EM_REGISTERS, &n) == EM_OK && em_registers(other, b, EM_REGISTERS, &m) == EM_OK);
  MUST(n == m && !memcmp(a, b, n * sizeof *a));
  MUST(em_wire_count(one, &n) == EM_OK && em_wire_count(other, &m) == EM_OK && n == m);
  if (n > 0) {
    static uint8_t sent[EM_MOST_SENT], there_too[EM_MOST_SENT];
    size_t length = 0, too = 0;
    MUST(em_wire_frame(one, n - 1, sent, sizeof sent, &length) == EM_OK);
    MUST(em_wire_frame(other, n - 1, there_too, sizeof there_too, &too) == EM_OK);
    MUST(length == too && !memcmp(sent, there_too, length));
  }
  MUST(is_one(newest(one), newest(other)));
}

/* Takes the newest event that is no memory write back, with the memory writes around it, of both. What software wrote
   stays in ram, and so it is written to the other again. */
static void go_back(em_machine *one, em_machine *other) {
  size_t done, writes;
  em_note note;
  for (int i = 0; i < 2; i++) {
    em_machine *machine = i ? other : one;
    do {
      if (em_event(machine, 0, &note) != EM_OK) break;
      MUST(em_back(machine, 1, &done) == EM_OK);
    } while (note.kind == EM_POKE);
  }
  MUST(em_sync_in(other, ram, MEMORY, &writes) == EM_OK);
}

static void comes_to_the_same(const em_ram *memory, uint32_t first) {
  em_machine one = attached(memory), other = made_there();
  size_t writes;
  seed = first;
  OK(em_sync_in(&other, ram, MEMORY, &writes));
  OK(em_set_link(&other, true));
  const uint32_t setup[][2] = {{RDLEN, 128}, {RDT, 7}, {TDLEN, 128}, {RCTL, RCTL_EN | RCTL_BAM}, {TCTL, TCTL_EN}};
  set_bases(&other);
  for (size_t i = 0; i < sizeof setup / sizeof *setup; i++) OK(em_write(&other, setup[i][0], setup[i][1]));
  for (int i = 0; i < 4000; i++) {
    uint32_t what = below(12), a = below(10000), b = below(10000), told[2] = {0, 0}, too[2] = {0, 0};
    if (what >= 10) store_descriptor(&other);
    else if (what == 9) go_back(&one, &other);
    else performs(&one, what % 8, a, b, told), performs(&other, what % 8, a, b, too);
    MUST(told[0] == too[0] && told[1] == too[1]);
    if (i % 50 == 0 || what == 9) are_one(&one, &other);
    if (failed == 0) continue;
    printf("seed %u, call %d, %u\n", (unsigned)first, i, (unsigned)what);
    break;
  }
  are_one(&one, &other);
  passed++;
  em_free(&one);
  em_free(&other);
}

int main(void) {
  asks_for_what_it_needs();
  notes_what_it_brings();
  refuses_each_range();
  keeps_the_steps_before();
  refuses_calls_back();
  copies_no_memory();
  refuses_what_is_no_memory();
  pokes();
  goes_back();
  goes_over_regions();
  tells_needs();
  syncs_ranges();
  static const uint64_t bases[] = {0, 0x80000000, 0x180000000};
  for (uint32_t first = 1; first <= 12; first++) {
    whole.base = base = bases[first / 2 % 3];
    comes_to_the_same(first % 2 ? &by_calls : &by_regions, first);
  }
  CHECK(blocks == 0);
  return tell_counts();
}
