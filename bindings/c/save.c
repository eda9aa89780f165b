/* A run that nobody kept, written down afterwards: its events are taken from the journal of a copy, and performed once
   more on a machine that is made like the first one, whose run is kept. So the lines are those of the proved calls.

   A note has no octets. Those of a memory write and of a frame that was stored are in the copy, when it has gone back so
   far. Those of a frame that was dropped are nowhere: another one of the same length stands for it, which the copy
   drops for the same reason. What a dropped frame changes goes by the reason alone. */
#include "keep.h"

#include <errno.h>
#include <stdlib.h>
#include <string.h>

/* registers, and bits of them */
enum { CTRL = 0x0, VET = 0x38, RCTL = 0x100, RDBAL = 0x2800, RDBAH = 0x2804, RDLEN = 0x2808, RDH = 0x2810, RDT = 0x2818 };
enum { RAL0 = 0x5400, RAH0 = 0x5404, ENTRIES = 16, RX_ON = 2 };
static const uint32_t RST = UINT32_C(1) << 26;

/* what an event costs the journal (docs/device.md), and the most that one costs */
enum { COST = 32, RECEIVED = 40, RESET = 65536, MOST_COST = 65536 };

enum { MOST_FRAME = 20000, ADDRESS = 6, TYPE = 12, TAG = 4 };

/* an event, and its octets where it brings some */
typedef struct step {
  em_note note;
  uint8_t *octets;
} step;

/* a frame that waits, and the tag that was taken out of it */
typedef struct waiting {
  size_t length;
  bool is_tagged;
  uint32_t tag;
  uint8_t *octets;
} waiting;

typedef struct saving {
  em_machine copy;  /* it goes back, */
  em_machine fresh; /* and here all is done once more */
  step *steps;      /* the oldest first */
  size_t count;
  waiting *frames;  /* of those that wait in the copy so many are known: the newest, the last of them last */
  size_t known;
  uint8_t room[MOST_FRAME];
} saving;

/* ---- the journal */

static bool is_drop(uint32_t kind) { return kind >= EM_DOWN && kind <= EM_MISSED; }

/* What an event costs, or a little more. */
static uint64_t cost_of(const em_note *note) {
  switch (note->kind) {
    case EM_WRITE: return note->at == CTRL && note->value & RST ? RESET : COST;
    case EM_POKE:
    case EM_STORED: return COST + (uint64_t)note->length;
    case EM_WROTE: return RECEIVED + (uint64_t)note->octets;
    case EM_FETCHED:
    case EM_SENT: return COST + 1 + (uint64_t)note->octets + note->length;
    default: return COST;
  }
}

/* Whether the journal has all events of the machine, and how many. It drops one where they would cost more than the budget,
   and then they cost more than the budget without the dearest event, as long as none is taken back. */
static em_code has_all(const em_machine *machine, size_t *count) {
  uint64_t spent = MOST_COST;
  em_note note;
  em_code why = em_can_go_back(machine, count);
  for (size_t k = 0; why == EM_OK && k < *count; k++) {
    why = em_event(machine, k, &note);
    if (why == EM_OK) spent += cost_of(&note);
  }
  if (why == EM_OK && (machine->state & BEGUN || spent > machine->state >> BUDGET)) why = EM_BEGUN;
  return why;
}

static uint8_t *kept_octets(const uint8_t *octets, size_t length) {
  uint8_t *made = malloc(length);
  if (made != NULL) memcpy(made, octets, length);
  return made;
}

/* ---- a frame that was stored */

/* Adds the first frame that waits to those that are known. */
static em_code know_first(saving *all, const em_machine *machine) {
  waiting *frame = &all->frames[all->known];
  em_fifo_state fifo;
  em_code why = em_fifo(machine, &fifo);
  if (why == EM_OK) why = em_fifo_frame(machine, all->room, sizeof all->room, &frame->length);
  if (why != EM_OK) return why;
  frame->is_tagged = fifo.tagged;
  frame->tag = fifo.tag;
  frame->octets = kept_octets(all->room, frame->length);
  if (frame->octets == NULL) return EM_MEMORY;
  all->known++;
  return EM_OK;
}

/* Receives until one frame less waits: into the second half of the first page, from a ring in the first. */
static em_code receive_one(em_machine *machine, uint64_t frames) {
  enum { COUNT = 8 };
  em_fifo_state fifo = {frames, 0, 0, 0, 0};
  em_code why = EM_OK;
  em_note note;
  while (why == EM_OK && fifo.frames == frames) {
    uint32_t head = 0;
    why = em_look(machine, RDH, &head);
    if (why == EM_OK) why = proved_write(machine, RDT, (head + COUNT - 1) % COUNT);
    if (why == EM_OK) why = proved_rx_step(machine, &note);
    if (why == EM_OK) why = em_fifo(machine, &fifo);
  }
  return why;
}

static em_code begin_to_receive(em_machine *machine) {
  enum { HALF = 2048, DESCRIPTOR = 16, COUNT = 8 };
  uint8_t ring[COUNT * DESCRIPTOR] = {0};
  uint64_t base = 0;
  em_code why = em_memory_base(machine, &base);
  for (size_t i = 0; i < sizeof ring; i++) ring[i] = i % DESCRIPTOR < 8 ? (uint8_t)((base + HALF) >> 8 * (i % DESCRIPTOR)) : 0;
  const uint32_t set[][2] = {{RCTL, 0}, {RDBAL, (uint32_t)base}, {RDBAH, (uint32_t)(base >> 32)}, {RDLEN, sizeof ring},
                             {RDH, 0}, {RDT, 0}, {RCTL, RX_ON}};
  if (why == EM_OK) why = proved_poke(machine, base, ring, sizeof ring);
  for (size_t i = 0; why == EM_OK && i < sizeof set / sizeof *set; i++) why = proved_write(machine, set[i][0], set[i][1]);
  return why;
}

/* Reads all frames that wait in the copy, by a copy of it that receives them. */
static em_code know_frames(saving *all, uint64_t frames) {
  em_machine drained = EM_NO_MACHINE;
  if (frames == 1) return know_first(all, &all->copy);
  em_code why = em_copy(&all->copy, &drained);
  if (why == EM_OK) why = begin_to_receive(&drained);
  for (; why == EM_OK && frames > 0; frames--) {
    why = know_first(all, &drained);
    if (why == EM_OK && frames > 1) why = receive_one(&drained, frames);
  }
  em_free(&drained);
  return why;
}

/* The octets of the frame that is stored last in the copy, as it came. */
static em_code last_frame(saving *all, uint8_t **octets) {
  em_fifo_state fifo;
  uint32_t type = 0;
  em_code why = em_fifo(&all->copy, &fifo);
  if (why == EM_OK) why = em_look(&all->copy, VET, &type);
  if (why == EM_OK && all->known == 0) why = know_frames(all, fifo.frames);
  if (why != EM_OK) return why;
  const waiting frame = all->frames[--all->known];
  if (!frame.is_tagged) {
    *octets = frame.octets;
    return EM_OK;
  }
  const uint8_t tag[TAG] = {(uint8_t)(type >> 8), (uint8_t)type, (uint8_t)(frame.tag >> 8), (uint8_t)frame.tag};
  if ((*octets = malloc(frame.length + TAG)) != NULL) {
    memcpy(*octets, frame.octets, TYPE);
    memcpy(*octets + TYPE, tag, TAG);
    memcpy(*octets + TYPE + TAG, frame.octets + TYPE, frame.length - TYPE);
  }
  free(frame.octets);
  return *octets != NULL ? EM_OK : EM_MEMORY;
}

/* ---- a frame that was dropped */

/* Whether the copy drops the frame in the room for this reason; it is as before then. */
static em_code is_dropped_so(saving *all, const em_note *note, bool *is_so) {
  size_t gone;
  em_note came;
  em_code why = proved_arrive(&all->copy, all->room, note->length, &came);
  *is_so = why == EM_OK && came.kind == note->kind;
  return why == EM_OK ? proved_back(&all->copy, 1, &gone) : why;
}

/* The n-th frame that is tried: to everybody; to an address of the adapter's; to one of as many others and one more; to
   group addresses of each place in the table; and to everybody in each VLAN. */
static bool try_next(saving *all, size_t n, size_t length) {
  enum { PLACES = 4096, OTHERS = ENTRIES + 1 };
  memset(all->room, 0, length);
  memset(all->room, 0xFF, ADDRESS);
  if (n == 0) return true;
  n -= 1;
  if (n < ENTRIES) {
    uint32_t low = 0, high = 0;
    ignore(em_look(&all->copy, RAL0 + 8 * (uint32_t)n, &low));
    ignore(em_look(&all->copy, RAH0 + 8 * (uint32_t)n, &high));
    const uint8_t own[ADDRESS] = {(uint8_t)low, (uint8_t)(low >> 8), (uint8_t)(low >> 16), (uint8_t)(low >> 24),
                                  (uint8_t)high, (uint8_t)(high >> 8)};
    memcpy(all->room, own, ADDRESS);
    return true;
  }
  n -= ENTRIES;
  if (n < OTHERS) {
    const uint8_t other[ADDRESS] = {2, 0, 0, 0, 0, (uint8_t)n};
    memcpy(all->room, other, ADDRESS);
    return true;
  }
  n -= OTHERS;
  if (n < PLACES) {
    /* (the upper four bits once more at the end: so each of the four sets of bits goes over all places) */
    const uint8_t group[ADDRESS] = {1, 0, 0, 0, (uint8_t)(n << 4 | n >> 8), (uint8_t)(n >> 4)};
    memcpy(all->room, group, ADDRESS);
    return true;
  }
  n -= PLACES;
  if (n >= PLACES || length < TYPE + TAG) return false;
  uint32_t type = 0;
  ignore(em_look(&all->copy, VET, &type));
  const uint8_t tag[TAG] = {(uint8_t)(type >> 8), (uint8_t)type, (uint8_t)(n >> 8), (uint8_t)n};
  memcpy(all->room + TYPE, tag, TAG);
  return true;
}

/* A frame that is dropped as that one was, of which the copy stands before it. */
static em_code dropped_frame(saving *all, const em_note *note, uint8_t **octets) {
  em_code why = EM_OK;
  bool is_so = false;
  for (size_t n = 0; why == EM_OK && !is_so; n++) {
    if (!try_next(all, n, note->length)) return EM_BEGUN;
    why = is_dropped_so(all, note, &is_so);
  }
  if (why != EM_OK) return why;
  *octets = kept_octets(all->room, note->length);
  return *octets != NULL ? EM_OK : EM_MEMORY;
}

/* ---- the events, the newest first */

static em_code written_octets(saving *all, const em_note *note, uint8_t **octets) {
  *octets = malloc(note->length);
  return *octets != NULL ? em_peek(&all->copy, note->at, *octets, note->length) : EM_MEMORY;
}

/* Takes the newest event back, and has its octets. */
static em_code take_back(saving *all, step *one) {
  size_t gone;
  em_code why = em_event(&all->copy, 0, &one->note);
  if (why == EM_OK && one->note.kind == EM_POKE) why = written_octets(all, &one->note, &one->octets);
  if (why == EM_OK && one->note.kind == EM_STORED) why = last_frame(all, &one->octets);
  if (why == EM_OK) why = proved_back(&all->copy, 1, &gone);
  if (why == EM_OK && is_drop(one->note.kind)) why = dropped_frame(all, &one->note, &one->octets);
  return why;
}

/* ---- once more */

static em_code perform(em_machine *machine, const step *one) {
  const em_note *was = &one->note;
  em_note note;
  uint32_t value;
  em_code why = em_tag(machine, was->tag);
  if (why != EM_OK) return why;
  switch (was->kind) {
    case EM_READ: return em_read(machine, (uint32_t)was->at, &value);
    case EM_WRITE: return em_write(machine, (uint32_t)was->at, was->value);
    case EM_POKE: return em_poke(machine, was->at, one->octets, was->length);
    case EM_LINK_UP:
    case EM_LINK_DOWN: return em_set_link(machine, was->kind == EM_LINK_UP);
    case EM_RX_IDLE:
    case EM_WROTE: return em_rx_step(machine, &note);
    case EM_TX_IDLE:
    case EM_FETCHED:
    case EM_SENT: return em_tx_step(machine, &note);
    default: return em_arrive(machine, one->octets, was->length, &note);
  }
}

static bool is_same(const em_note *a, const em_note *b) {
  return a->tag == b->tag && a->at == b->at && a->length == b->length && a->value == b->value && a->kind == b->kind
    && a->buffer == b->buffer && a->octets == b->octets;
}

static em_code perform_all(saving *all) {
  em_note note;
  em_code why = EM_OK;
  for (size_t i = 0; why == EM_OK && i < all->count; i++) {
    why = perform(&all->fresh, &all->steps[i]);
    if (why == EM_OK) why = em_event(&all->fresh, 0, &note);
    if (why == EM_OK && !is_same(&note, &all->steps[i].note)) why = EM_BEGUN;
  }
  return why;
}

/* ---- the call */

static em_code make_fresh(saving *all) {
  uint16_t words[EEPROM_WORDS];
  uint32_t profile = 0;
  uint64_t base = 0, size = 0, tag = 0;
  em_code why = what_it_is_of(&all->copy, &profile, &base, &size, words, &tag);
  if (why != EM_OK) return why;
  return em_make_as_with_eeprom(&all->fresh, profile, base, size, all->copy.state >> BUDGET, words);
}

static em_code save(saving *all, const char *path) {
  em_code why = EM_OK;
  int error = 0;
  for (size_t i = all->count; why == EM_OK && i > 0; i--) why = take_back(all, &all->steps[i - 1]);
  if (why == EM_OK) why = make_fresh(all);
  if (why == EM_OK) why = em_record_to(&all->fresh, path);
  if (why == EM_OK) why = perform_all(all);
  if (why == EM_OK && (why = em_recording_status(&all->fresh, &error)) == EM_FILE) errno = error;
  return why;
}

static void *zeros(size_t count, size_t size) {
  void *made = malloc(count * size + 1);
  if (made != NULL) memset(made, 0, count * size);
  return made;
}

static void let_go(saving *all) {
  em_free(&all->copy);
  em_free(&all->fresh);
  for (size_t i = 0; all->steps != NULL && i < all->count; i++) free(all->steps[i].octets);
  for (size_t i = 0; i < all->known; i++) free(all->frames[i].octets);
  free(all->steps);
  free(all->frames);
  free(all);
}

em_code em_save(const em_machine *machine, const char *path) {
  size_t count = 0;
  em_code why = has_all(machine, &count);
  if (why != EM_OK) return why;
  saving *all = zeros(1, sizeof *all);
  if (all == NULL) return EM_MEMORY;
  all->count = count;
  all->steps = zeros(count, sizeof *all->steps);
  all->frames = zeros(count, sizeof *all->frames);
  why = all->steps == NULL || all->frames == NULL ? EM_MEMORY : em_copy(machine, &all->copy);
  if (why == EM_OK) why = save(all, path);
  const int error = errno;
  let_go(all);
  if (why == EM_FILE) errno = error;
  return why;
}
