/* The caller's own memory, attached to a machine: what the calls of bunjelav.h do beside the proved ones.

   A call that changes the machine goes through this file; one that looks at it is the proved one itself.

   A step goes so: the proved part tells what it needs; the descriptor is brought, by a memory write where it differs; the
   proved part is asked again, since the rest depends on the descriptor; the rest is brought, also what will be written,
   so that a step back has the caller's octets; the step is made; and what its record says that it wrote goes out. The
   addresses are the guest's throughout: nothing here knows where guest memory begins or ends. */
#include "layer.h"

#include <string.h>

/* ---- the caller's memory */

/* Where an address lies in a region; `length` becomes how many of so many octets lie there. */
static uint8_t *place(const em_ram *ram, uint64_t address, size_t *length) {
  for (size_t i = 0; i < ram->count; i++) {
    const em_region *region = &ram->regions[i];
    uint64_t at = address - region->base; /* (below the region it is huge) */
    if (address < region->base || at >= region->size) continue;
    if (region->size - at < *length) *length = (size_t)(region->size - at);
    return region->octets + at;
  }
  return NULL;
}

static bool is_held(const em_ram *ram, uint64_t address, size_t length) {
  for (size_t piece; length > 0; address += piece, length -= piece) {
    piece = length;
    if (place(ram, address, &piece) == NULL) return false;
  }
  return true;
}

/* Octets as one word, or one octet: who polls DD in another thread sees with it all that was written before. */
static void put(uint8_t *to, const uint8_t *from, size_t length) {
  typedef uint64_t __attribute__((may_alias)) word;
  if (length == sizeof(word) && (uintptr_t)to % sizeof(word) == 0) {
    word all;
    memcpy(&all, from, sizeof all);
    __atomic_store_n((word *)(void *)to, all, __ATOMIC_RELEASE);
  } else if (length == 1) {
    __atomic_store_n(to, *from, __ATOMIC_RELEASE);
  } else {
    memcpy(to, from, length);
  }
}

/* before a function of the caller's is called, and behind it */
static void turn(em_machine *machine) { machine->state ^= ATTACHED | CALLING; }

static bool read_ram(em_machine *machine, uint64_t address, uint8_t *out, size_t length) {
  const em_ram *ram = ram_of(machine);
  if (ram->read != NULL) {
    turn(machine);
    bool could = ram->read(ram->context, address, out, length);
    turn(machine);
    return could;
  }
  for (size_t piece; length > 0; address += piece, out += piece, length -= piece) {
    piece = length;
    const uint8_t *from = place(ram, address, &piece);
    if (from == NULL) return false;
    memcpy(out, from, piece);
  }
  return true;
}

static bool write_ram(em_machine *machine, uint64_t address, const uint8_t *octets, size_t length) {
  const em_ram *ram = ram_of(machine);
  if (ram->write != NULL) {
    turn(machine);
    bool could = ram->write(ram->context, address, octets, length);
    turn(machine);
    return could;
  }
  if (!is_held(ram, address, length)) return false;
  for (size_t piece; length > 0; address += piece, octets += piece, length -= piece) {
    piece = length;
    uint8_t *to = place(ram, address, &piece);
    put(to, octets, piece);
  }
  return true;
}

/* Makes the machine's octets what the caller's are; `events` counts the memory writes. (They are copied first: the
   proved part sees no octet that another thread may write meanwhile.) */
static em_code bring(em_machine *machine, em_range range, size_t *events) {
  uint8_t octets[MOST];
  size_t length = (size_t)range.length, writes = 0;
  if (length == 0) return EM_OK;
  if (length > sizeof octets) return EM_LENGTH; /* (no step has such a range) */
  if (!read_ram(machine, range.address, octets, length)) return EM_UNREAD;
  em_code why = BY_KEEPING(machine, sync_in_range, range.address, octets, length, &writes);
  *events += writes;
  return why;
}

/* Makes the caller's octets what the machine's are, first in the one range and then in the other. */
static em_code take_out(em_machine *machine, const em_range ranges[2]) {
  uint8_t octets[MOST];
  for (int i = 0; i < 2; i++) {
    size_t length = (size_t)ranges[i].length;
    if (length == 0) continue;
    if (length > sizeof octets) return EM_LENGTH;
    em_code why = em_peek(machine, ranges[i].address, octets, length);
    if (why != EM_OK) return why;
    if (!write_ram(machine, ranges[i].address, octets, length)) return EM_UNWRITTEN;
  }
  return EM_OK;
}

/* ---- steps */

/* Takes events back. (From then on an empty journal does not say that there was no event.) */
static em_code go_back(em_machine *machine, size_t n, size_t *done) {
  em_code why = BY_KEEPING(machine, back, n, done);
  if (why == EM_OK && *done > 0) machine->state |= BEGUN;
  return why;
}

static bool is_idle(uint32_t kind) { return kind == EM_RX_IDLE || kind == EM_TX_IDLE; }

static bool is_step(uint32_t kind) { return kind == EM_WROTE || kind == EM_FETCHED || kind == EM_SENT; }

static bool lies_in(em_range inner, em_range outer) {
  return inner.address >= outer.address && inner.address + inner.length <= outer.address + outer.length;
}

/* Brings what the next step reads, and what lies where it will write. */
static em_code bring_needs(em_machine *machine, uint32_t side, size_t *events) {
  em_range reads[2], writes[2];
  em_code why = em_ring_needs(machine, side, reads, writes);
  if (why != EM_OK || reads[0].length == 0) return why;
  const em_range descriptor = reads[0];
  why = bring(machine, descriptor, events);
  if (why == EM_OK) why = em_ring_needs(machine, side, reads, writes);
  if (why == EM_OK) why = bring(machine, reads[1], events);
  for (int i = 0; i < 2 && why == EM_OK; i++) {
    if (!lies_in(writes[i], descriptor)) why = bring(machine, writes[i], events);
  }
  return why;
}

static em_code step_alone(em_machine *machine, uint32_t side, em_note *event) {
  return side == EM_RX_RING ? BY_KEEPING(machine, rx_step, event) : BY_KEEPING(machine, tx_step, event);
}

/* A step over the caller's memory. Where it is refused, what was done for it is taken back. */
static em_code step_attached(em_machine *machine, uint32_t side, em_note *event) {
  em_range written[2];
  em_note note;
  size_t events = 0, gone;
  em_code why = bring_needs(machine, side, &events);
  if (why == EM_OK) why = step_alone(machine, side, &note);
  if (why == EM_OK && !is_idle(note.kind)) {
    events++;
    why = em_written(machine, 0, written);
    if (why == EM_OK) why = take_out(machine, written);
  }
  if (why == EM_OK) *event = note;
  else if (events > 0) ignore(go_back(machine, events, &gone));
  return why;
}

static em_code step(em_machine *machine, uint32_t side, em_note *event) {
  return machine->state & ATTACHED ? step_attached(machine, side, event) : step_alone(machine, side, event);
}

static em_code run(em_machine *machine, uint32_t side, size_t n, size_t *done) {
  em_code why = EM_OK;
  em_note note;
  for (*done = 0; *done < n; ++*done) {
    why = step(machine, side, &note);
    if (why != EM_OK || is_idle(note.kind)) break;
  }
  return why;
}

/* How many of the newest n events are no steps that wrote, up to one that may have. */
static size_t others(em_machine *machine, size_t n) {
  size_t k = 0;
  for (em_note note; k < n; k++) {
    if (em_event(machine, k, &note) != EM_OK || is_step(note.kind)) break;
  }
  return k;
}

static em_code back_attached(em_machine *machine, size_t n, size_t *done) {
  em_code why = EM_OK;
  for (*done = 0; *done < n && why == EM_OK;) {
    em_range written[2] = {{0, 0}, {0, 0}};
    size_t count = others(machine, n - *done), gone = 0;
    if (count == 0) {
      count = 1;
      if (em_written(machine, 0, written) != EM_OK) break;
    }
    why = go_back(machine, count, &gone);
    *done += gone;
    if (why == EM_OK) why = take_out(machine, written);
  }
  return why;
}

/* ---- the calls */

em_code em_attach(em_machine *machine, const em_ram *ram) {
  bool by_calls = ram->read != NULL && ram->write != NULL;
  bool by_regions = ram->read == NULL && ram->write == NULL && ram->count > 0;
  if (machine->state & CALLING) return EM_BUSY;
  if (!machine->made) return EM_NOT_MADE;
  if (!by_calls && !by_regions) return EM_NO_RAM;
  *ram_of(machine) = *ram;
  machine->state |= ATTACHED;
  return EM_OK;
}

em_code em_detach(em_machine *machine) {
  if (machine->state & CALLING) return EM_BUSY;
  if (!machine->made) return EM_NOT_MADE;
  memset(ram_of(machine), 0, sizeof(em_ram));
  machine->state &= ~(uint32_t)ATTACHED;
  return EM_OK;
}

/* A copy is where the machine is, and has nothing of the caller's: neither memory that is attached nor a kept run. */
em_code em_copy(const em_machine *machine, em_machine *copy) {
  if (copy->state & CALLING) return EM_BUSY;
  em_code why = proved_copy(machine, copy);
  if (why == EM_OK) copy->state = machine->state & ~(uint32_t)(ATTACHED | CALLING | KEPT);
  return why;
}

void em_free(em_machine *machine) {
  if (machine->state & CALLING) return;
  keep_no_more(machine);
  ignore(em_detach(machine));
  proved_free(machine);
  machine->state = 0;
}

em_code em_poke(em_machine *machine, uint64_t address, const uint8_t *octets, size_t length) {
  size_t gone;
  if (machine->state & CALLING) return EM_BUSY;
  em_code why = BY_KEEPING(machine, poke, address, octets, length);
  if (why != EM_OK || !(machine->state & ATTACHED) || write_ram(machine, address, octets, length)) return why;
  ignore(go_back(machine, 1, &gone));
  return EM_UNWRITTEN;
}

/* within a function of the caller's a call is refused */
#define UNLESS_CALLING(done) (machine->state & CALLING ? EM_BUSY : (done))

em_code em_rx_step(em_machine *machine, em_note *event) { return UNLESS_CALLING(step(machine, EM_RX_RING, event)); }

em_code em_tx_step(em_machine *machine, em_note *event) { return UNLESS_CALLING(step(machine, EM_TX_RING, event)); }

/* steps one by one, where memory is attached or the run is kept */
#define IS_PLAIN (!(machine->state & (ATTACHED | KEPT)))

em_code em_run_rx(em_machine *machine, size_t n, size_t *done) {
  return UNLESS_CALLING(IS_PLAIN ? proved_run_rx(machine, n, done) : run(machine, EM_RX_RING, n, done));
}

em_code em_run_tx(em_machine *machine, size_t n, size_t *done) {
  return UNLESS_CALLING(IS_PLAIN ? proved_run_tx(machine, n, done) : run(machine, EM_TX_RING, n, done));
}

em_code em_back(em_machine *machine, size_t n, size_t *done) {
  return UNLESS_CALLING(machine->state & ATTACHED ? back_attached(machine, n, done) : go_back(machine, n, done));
}

/* A new machine's state has its budget. */
static em_code begun(em_machine *machine, uint64_t budget, em_code why) {
  if (why == EM_OK) machine->state = (uint32_t)budget << BUDGET;
  return why;
}

em_code em_make(em_machine *machine, uint64_t memory, uint64_t budget, const uint8_t mac[6]) {
  return UNLESS_CALLING(begun(machine, budget, proved_make(machine, memory, budget, mac)));
}

em_code em_make_with_eeprom(em_machine *machine, uint64_t memory, uint64_t budget, const uint16_t words[64]) {
  return UNLESS_CALLING(begun(machine, budget, proved_make_with_eeprom(machine, memory, budget, words)));
}

em_code em_make_at(em_machine *machine, uint64_t base, uint64_t memory, uint64_t budget, const uint8_t mac[6]) {
  return UNLESS_CALLING(begun(machine, budget, proved_make_at(machine, base, memory, budget, mac)));
}

em_code em_make_at_with_eeprom(em_machine *machine, uint64_t base, uint64_t memory, uint64_t budget,
                               const uint16_t words[64]) {
  return UNLESS_CALLING(begun(machine, budget, proved_make_at_with_eeprom(machine, base, memory, budget, words)));
}

em_code em_make_as(em_machine *machine, uint32_t profile, uint64_t base, uint64_t memory, uint64_t budget,
                   const uint8_t mac[6]) {
  return UNLESS_CALLING(begun(machine, budget, proved_make_as(machine, profile, base, memory, budget, mac)));
}

em_code em_make_as_with_eeprom(em_machine *machine, uint32_t profile, uint64_t base, uint64_t memory, uint64_t budget,
                               const uint16_t words[64]) {
  return UNLESS_CALLING(begun(machine, budget, proved_make_as_with_eeprom(machine, profile, base, memory, budget, words)));
}

em_code em_load(em_machine *machine, const uint8_t *octets, size_t length) {
  if (machine->state & CALLING) return EM_BUSY;
  em_code why = proved_load(machine, octets, length);
  if (why == EM_OK) machine->state = BEGUN;
  return why;
}

/* what touches no memory of the caller's */
#define PASSED(call, parameters, ...) \
  em_code em_##call parameters { return UNLESS_CALLING(BY_KEEPING(machine, call, __VA_ARGS__)); }

PASSED(read, (em_machine *machine, uint32_t offset, uint32_t *value), offset, value)
PASSED(write, (em_machine *machine, uint32_t offset, uint32_t value), offset, value)
PASSED(sync_in, (em_machine *machine, const uint8_t *ram, size_t size, size_t *writes), ram, size, writes)
PASSED(sync_in_range, (em_machine *machine, uint64_t address, const uint8_t *octets, size_t length, size_t *writes),
       address, octets, length, writes)
PASSED(arrive, (em_machine *machine, const uint8_t *frame, size_t length, em_note *event), frame, length, event)
PASSED(set_link, (em_machine *machine, bool up), up)
PASSED(tag, (em_machine *machine, uint64_t tag), tag)

/* Of a run that is kept a word is kept as em_read and em_write keep it; another width leaves no line. */
#define IS_KEPT(machine, octets) ((machine)->state & KEPT && (octets) == sizeof(uint32_t))

static em_code keep_word(em_machine *machine, uint32_t offset, uint64_t *value) {
  uint32_t word;
  em_code why = keep_read(machine, offset, &word);
  if (why == EM_OK) *value = word;
  return why;
}

em_code em_read_sized(em_machine *machine, uint32_t offset, uint32_t octets, uint64_t *value) {
  return UNLESS_CALLING(IS_KEPT(machine, octets) ? keep_word(machine, offset, value)
                                                 : proved_read_sized(machine, offset, octets, value));
}

em_code em_write_sized(em_machine *machine, uint32_t offset, uint32_t octets, uint64_t value) {
  return UNLESS_CALLING(IS_KEPT(machine, octets) ? keep_write(machine, offset, (uint32_t)value)
                                                 : proved_write_sized(machine, offset, octets, value));
}

em_code em_let_go(em_machine *machine, size_t *count) { return UNLESS_CALLING(proved_let_go(machine, count)); }

em_code em_let_go_always(em_machine *machine, bool always) {
  if (machine->state & CALLING) return EM_BUSY;
  if (!machine->made) return EM_NOT_MADE;
  machine->state = always ? machine->state | LETS_GO : machine->state & ~(uint32_t)LETS_GO;
  return EM_OK;
}

/* Lets frames go where EM_MOST_KEPT of them still have their octets, beyond one for each event that can be taken back. To ask
   for it costs as much as to look at one frame, and a lot of frames shares the cost of letting them go. */
static void let_lot_go(em_machine *machine) {
  size_t sent = 0, events = 0, length = 0, count;
  uint8_t none;
  if (em_wire_count(machine, &sent) != EM_OK || em_can_go_back(machine, &events) != EM_OK) return;
  if (sent < events + EM_MOST_KEPT) return;
  em_code why = em_wire_frame(machine, sent - events - EM_MOST_KEPT, &none, 0, &length);
  if (why == EM_ROOM) (void)!proved_let_go(machine, &count);
}

em_code em_wire_next(em_machine *machine, uint8_t *out, size_t room, size_t *length) {
  if (machine->state & CALLING) return EM_BUSY;
  em_code why = proved_wire_next(machine, out, room, length);
  if (why == EM_NO_FRAME && machine->state & LETS_GO) let_lot_go(machine);
  return why;
}
