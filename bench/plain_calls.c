/* A plain, unproved stand-in for the calls that bench/calls.c measures, to be linked in the place of the library. It
   keeps what a step back needs, as the library promises it: of each event what it changed and a note with the caller's
   tag, as many as the budget holds. It knows registers that only store, ICR, IMS and memory; broadcasts of which each fits
   into one buffer, in a FIFO and on the wire, with the counters that they move; and one attached region.

       cc -O2 -Idist/x86_64-linux bench/calls.c bench/plain_calls.c -o plain && ./plain */
#define _DEFAULT_SOURCE
#include "bunjelav.h"

#include <fcntl.h>
#include <stdlib.h>
#include <string.h>
#include <sys/mman.h>
#include <unistd.h>

static const size_t MAPPED = (size_t)1 << 32; /* address space for a mapped file */

enum { OFFSETS = 0x6000, PAGE = 4096, COST = 32, ICR = 0x00C0, IMS = 0x00D0, RDT = 0x2818 };

struct record {
  uint32_t where, old; /* a register and what it held, or an address and how many octets */
  uint8_t *octets;     /* those of a memory write, or of a receive step */
  em_note note;
  uint32_t end, icr;   /* of a step: where a receive descriptor's end lies, and the causes before */
};

struct frame {
  uint8_t *octets;
  uint32_t length;
};

struct plain {
  uint32_t registers[OFFSETS / 4], masks[OFFSETS / 4];
  uint8_t *memory;
  uint64_t size, tag;
  struct record *ring;
  size_t places, first, count;
  em_ram ram;
  uint8_t fifo[32][2048];
  uint32_t lengths[32], oldest, waiting;
  struct frame *wire;
  size_t sent, places_sent;
  int file;            /* of a run that is kept; else below 0 */
  const char *name;
  uint32_t line;
  char *map;           /* by a mapping; else NULL */
  size_t used, size_mapped;
  char text[4096];
};

static struct plain *of(em_machine *machine) { return machine->held; }

/* The place of the next record; the oldest goes where there is none. */
static struct record *next(struct plain *p) {
  if (p->count == p->places) {
    free(p->ring[p->first].octets);
    p->first = p->first + 1 == p->places ? 0 : p->first + 1;
    p->count--;
  }
  size_t at = p->first + p->count;
  p->count++;
  return &p->ring[at < p->places ? at : at - p->places];
}

static bool is_register(const struct plain *p, uint32_t offset) {
  return offset < OFFSETS && offset % 4 == 0 && p->masks[offset / 4] != 0;
}

/* ---- a run that is kept: of each access and arrival a line, which is written at once */

static char *digits(char *to, const uint8_t *octets, size_t length) {
  static const char hex[] = "0123456789ABCDEF";
  for (size_t i = 0; i < length; i++) *to++ = hex[octets[i] >> 4], *to++ = hex[octets[i] & 15];
  return to;
}

/* in 8 digits, as an answer has them */
static char *value_digits(char *to, uint32_t value) {
  const uint8_t octets[4] = {(uint8_t)(value >> 24), (uint8_t)(value >> 16), (uint8_t)(value >> 8), (uint8_t)value};
  return digits(to, octets, 4);
}

/* with no zero in front, as what was done has it */
static char *number_digits(char *to, uint32_t value) {
  int shift = 28;
  while (shift > 0 && value >> shift == 0) shift -= 4;
  for (; shift >= 0; shift -= 4) *to++ = "0123456789ABCDEF"[value >> shift & 15];
  return to;
}

static char *text(char *to, const char *from) {
  size_t length = strlen(from);
  memcpy(to, from, length);
  return to + length;
}

/* Stores the line into the mapped file, which grows by blanks. */
static void store(struct plain *p, size_t length) {
  static char blanks[65536];
  memset(blanks, ' ', p->used == 0 ? sizeof blanks : 0);
  while (p->size_mapped < p->used + length) {
    if (pwrite(p->file, blanks, sizeof blanks, (off_t)p->size_mapped) != (ssize_t)sizeof blanks) exit(103);
    p->size_mapped += sizeof blanks;
  }
  memcpy(p->map + p->used, p->text, length);
  p->used += length;
}

static void end_line(struct plain *p, char *to) {
  char decimal[10], *at = decimal + sizeof decimal;
  if (p->name != NULL) {
    uint32_t left = p->line;
    to = text(text(text(to, " @"), p->name), ":");
    do *--at = (char)('0' + left % 10);
    while (left /= 10);
    while (at < decimal + sizeof decimal) *to++ = *at++;
  }
  *to++ = '\n';
  if (p->map != NULL) store(p, (size_t)(to - p->text));
  else if (write(p->file, p->text, (size_t)(to - p->text)) < 0) p->file = -1;
}

em_code em_record_to(em_machine *machine, const char *path) {
  of(machine)->file = open(path, O_WRONLY | O_CREAT | O_TRUNC | O_APPEND, 0666);
  return of(machine)->file < 0 ? EM_FILE : EM_OK;
}

em_code em_record_mapped(em_machine *machine, const char *path) {
  struct plain *p = of(machine);
  p->file = open(path, O_RDWR | O_CREAT | O_TRUNC, 0666);
  void *map = mmap(NULL, MAPPED, PROT_READ | PROT_WRITE, MAP_SHARED | MAP_NORESERVE, p->file, 0);
  p->map = map == MAP_FAILED ? NULL : map;
  return p->map == NULL ? EM_FILE : EM_OK;
}

em_code em_source(em_machine *machine, const char *file, uint32_t line) {
  of(machine)->name = file;
  of(machine)->line = line;
  return EM_OK;
}

/* ---- registers and memory */

static void keep(struct plain *p, uint32_t kind, uint32_t offset, uint32_t old, uint32_t value) {
  *next(p) = (struct record){offset, old, NULL, {p->tag, offset, 4, value, kind}, 0, 0};
}

em_code em_make(em_machine *machine, uint64_t memory, uint64_t budget, const uint8_t mac[6]) {
  struct plain *p = calloc(1, sizeof *p);
  (void)mac;
  if (p == NULL) return EM_MEMORY;
  for (size_t i = 0; i < OFFSETS / 4; i++) p->masks[i] = UINT32_MAX;
  p->masks[RDT / 4] = 0xFFFF;
  p->size = memory;
  p->file = -1;
  p->places = budget / COST;
  p->memory = calloc(1, memory);
  p->ring = calloc(p->places, sizeof *p->ring);
  machine->made = true;
  machine->held = p;
  return p->memory && p->ring ? EM_OK : EM_MEMORY;
}

void em_free(em_machine *machine) {
  for (size_t i = 0; i < of(machine)->places; i++) free(of(machine)->ring[i].octets);
  for (size_t i = 0; i < of(machine)->sent; i++) free(of(machine)->wire[i].octets);
  if (of(machine)->file >= 0) close(of(machine)->file);
  free(of(machine)->wire);
  free(of(machine)->ring);
  free(of(machine)->memory);
  free(of(machine));
}

em_code em_write(em_machine *machine, uint32_t offset, uint32_t value) {
  struct plain *p = of(machine);
  if (!is_register(p, offset)) return EM_NO_REGISTER;
  uint32_t *word = &p->registers[offset / 4], old = *word;
  if (offset == IMS) *word |= value;
  else if (offset == ICR) *word &= ~value;
  else *word = value & p->masks[offset / 4];
  keep(p, EM_WRITE, offset, old, value);
  if (p->file >= 0) {
    end_line(p, text(number_digits(text(number_digits(text(p->text, "w "), offset), " "), value), " =ok"));
  }
  return EM_OK;
}

em_code em_read(em_machine *machine, uint32_t offset, uint32_t *value) {
  struct plain *p = of(machine);
  if (!is_register(p, offset)) return EM_NO_REGISTER;
  *value = p->registers[offset / 4];
  if (offset == ICR) p->registers[ICR / 4] = 0;
  keep(p, EM_READ, offset, *value, *value);
  if (p->file >= 0) end_line(p, value_digits(text(number_digits(text(p->text, "r "), offset), " ="), *value));
  return EM_OK;
}

em_code em_poke(em_machine *machine, uint64_t address, const uint8_t *octets, size_t length) {
  struct plain *p = of(machine);
  if (length > p->size || address > p->size - length) return EM_RANGE;
  uint8_t *kept = malloc(length);
  if (kept == NULL) return EM_MEMORY;
  memcpy(kept, p->memory + address, length);
  memcpy(p->memory + address, octets, length);
  const em_note note = {p->tag, address, (uint32_t)length, 0, EM_POKE};
  *next(p) = (struct record){(uint32_t)address, (uint32_t)length, kept, note, 0, 0};
  return EM_OK;
}

/* ---- frames, engines, and attached memory. A frame of 60 octets or more lies in one buffer and is sent from one. */

enum { RDBAL = 0x2800, RDLEN = 0x2808, RDH = 0x2810, TDBAL = 0x3800, TDLEN = 0x3808, TDH = 0x3810, TDT = 0x3818 };
enum { SLOT = 2048, SLOTS = 32, RXT0 = 0x80, TXDW = 0x1, TXQE = 0x2, DD_AND_EOP = 0x03, DESCRIPTOR = 16 };
enum { GPRC = 0x4074, GORCL = 0x4088, TORL = 0x40C0, TPR = 0x40D0, BPRC = 0x4078, PRC64 = 0x405C };
enum { GPTC = 0x4080, GOTCL = 0x4090, TOTL = 0x40C8, TPT = 0x40D4, BPTC = 0x40F4, PTC64 = 0x40D8 };

static bool is_attached(const struct plain *p) { return p->ram.count > 0; }

em_code em_attach(em_machine *machine, const em_ram *ram) {
  of(machine)->ram = *ram;
  return EM_OK;
}

em_code em_set_link(em_machine *machine, bool up) {
  (void)up;
  keep(of(machine), EM_LINK_UP, 0, 0, 0);
  return EM_OK;
}

static uint32_t *word(struct plain *p, uint32_t offset) { return &p->registers[offset / 4]; }

/* What a frame adds to the counters of its direction; taken back by its negative. */
static void count(struct plain *p, bool receives, uint32_t octets, uint32_t by) {
  static const uint32_t of_rx[] = {GPRC, TPR, BPRC, GORCL, TORL}, of_tx[] = {GPTC, TPT, BPTC, GOTCL, TOTL};
  const uint32_t *offsets = receives ? of_rx : of_tx, size = octets + 4;
  uint32_t class = size <= 64 ? 0 : size <= 127 ? 1 : size <= 255 ? 2 : size <= 511 ? 3 : size <= 1023 ? 4 : 5;
  for (int i = 0; i < 3; i++) *word(p, offsets[i]) += by;
  for (int i = 3; i < 5; i++) *word(p, offsets[i]) += by * size;
  *word(p, (receives ? PRC64 : PTC64) + 4 * class) += by;
}

em_code em_arrive(em_machine *machine, const uint8_t *frame, size_t length, em_note *event) {
  struct plain *p = of(machine);
  uint8_t all = 0xFF;
  for (int i = 0; i < 6; i++) all &= frame[i];
  bool fits = p->waiting < SLOTS && length <= SLOT;
  uint32_t kind = all != 0xFF ? EM_REJECTED : fits ? EM_STORED : EM_MISSED;
  if (kind == EM_STORED) {
    uint32_t slot = (p->oldest + p->waiting++) % SLOTS;
    memcpy(p->fifo[slot], frame, length);
    p->lengths[slot] = (uint32_t)length;
    count(p, true, (uint32_t)length, 1);
  }
  *event = (em_note){p->tag, 0, (uint32_t)length, 0, kind};
  *next(p) = (struct record){0, 0, NULL, *event, 0, 0};
  if (p->file >= 0) {
    end_line(p, text(digits(text(p->text, "arrive "), frame, length), kind == EM_STORED ? " =stored" : " =dropped missed"));
  }
  return EM_OK;
}

/* Makes own octets what the caller's are, by a memory write where they differ. */
static em_code bring(em_machine *machine, uint64_t at, size_t length) {
  struct plain *p = of(machine);
  if (!is_attached(p)) return EM_OK;
  const uint8_t *theirs = p->ram.regions[0].octets + at, *mine = p->memory + at;
  size_t first = 0, last = length;
  if (memcmp(mine, theirs, length) == 0) return EM_OK;
  while (mine[first] == theirs[first]) first++;
  while (mine[last - 1] == theirs[last - 1]) last--;
  return em_poke(machine, at + first, theirs + first, last - first);
}

static void take_out(struct plain *p, uint64_t at, size_t length) {
  if (is_attached(p)) memcpy(p->ram.regions[0].octets + at, p->memory + at, length);
}

static uint64_t number(const uint8_t *from, int octets) {
  uint64_t value = 0;
  while (octets--) value = value << 8 | from[octets];
  return value;
}

static void move(struct plain *p, uint32_t head, uint32_t length) {
  *word(p, head) = *word(p, head) + 1 == *word(p, length) / DESCRIPTOR ? 0 : *word(p, head) + 1;
}

em_code em_rx_step(em_machine *machine, em_note *event) {
  struct plain *p = of(machine);
  uint32_t head = *word(p, RDH), icr = *word(p, ICR);
  *event = (em_note){p->tag, 0, 0, 0, EM_RX_IDLE};
  if (p->waiting == 0 || head == *word(p, RDT)) {
    *next(p) = (struct record){0, 0, NULL, *event, 0, 0};
    return EM_OK;
  }
  uint64_t at = *word(p, RDBAL) + DESCRIPTOR * (uint64_t)head;
  uint32_t length = p->lengths[p->oldest];
  if (bring(machine, at, DESCRIPTOR) != EM_OK) return EM_MEMORY;
  uint64_t buffer = number(p->memory + at, 8);
  if (buffer > p->size || length > p->size - buffer) return EM_DMA_RANGE;
  if (bring(machine, buffer, length) != EM_OK) return EM_MEMORY;
  uint8_t *kept = malloc(length + 8);
  if (kept == NULL) return EM_MEMORY;
  memcpy(kept, p->memory + buffer, length);
  memcpy(kept + length, p->memory + at + 8, 8);
  memcpy(p->memory + buffer, p->fifo[p->oldest], length);
  const uint8_t end[8] = {(uint8_t)length, (uint8_t)(length >> 8), 0, 0, DD_AND_EOP | 4};
  memcpy(p->memory + at + 8, end, 8);
  p->oldest = (p->oldest + 1) % SLOTS;
  p->waiting--;
  move(p, RDH, RDLEN);
  *word(p, ICR) |= RXT0;
  take_out(p, buffer, length);
  take_out(p, at + 8, 8);
  *event = (em_note){p->tag, 0, 0, head, EM_WROTE};
  *next(p) = (struct record){(uint32_t)buffer, length, kept, *event, (uint32_t)at, icr};
  return EM_OK;
}

em_code em_tx_step(em_machine *machine, em_note *event) {
  struct plain *p = of(machine);
  uint32_t head = *word(p, TDH), icr = *word(p, ICR);
  *event = (em_note){p->tag, 0, 0, 0, EM_TX_IDLE};
  if (head == *word(p, TDT)) {
    *next(p) = (struct record){0, 0, NULL, *event, 0, 0};
    return EM_OK;
  }
  uint64_t at = *word(p, TDBAL) + DESCRIPTOR * (uint64_t)head;
  if (bring(machine, at, DESCRIPTOR) != EM_OK) return EM_MEMORY;
  uint64_t buffer = number(p->memory + at, 8);
  uint32_t length = (uint32_t)number(p->memory + at + 8, 2);
  if (buffer > p->size || length > p->size - buffer) return EM_DMA_RANGE;
  if (bring(machine, buffer, length) != EM_OK) return EM_MEMORY;
  uint8_t *sent = malloc(length);
  if (p->sent == p->places_sent) {
    size_t places = p->places_sent ? 2 * p->places_sent : 64;
    struct frame *wire = realloc(p->wire, places * sizeof *wire);
    if (wire == NULL) return free(sent), EM_MEMORY;
    p->wire = wire, p->places_sent = places;
  }
  if (sent == NULL) return EM_MEMORY;
  memcpy(sent, p->memory + buffer, length);
  p->wire[p->sent++] = (struct frame){sent, length};
  count(p, false, length, 1);
  p->memory[at + 12] |= 1;
  take_out(p, at + 12, 1);
  move(p, TDH, TDLEN);
  *word(p, ICR) |= TXDW | (*word(p, TDH) == *word(p, TDT) ? TXQE : 0);
  *event = (em_note){p->tag, 0, length, head, EM_SENT};
  *next(p) = (struct record){(uint32_t)at, 0, NULL, *event, 0, icr};
  return EM_OK;
}

static em_code run(em_machine *machine, uint32_t (*step)(em_machine *, em_note *), size_t n, size_t *done) {
  em_note event;
  for (*done = 0; *done < n; ++*done) {
    em_code why = step(machine, &event);
    if (why != EM_OK) return why;
    if (event.kind == EM_RX_IDLE || event.kind == EM_TX_IDLE) break;
  }
  return EM_OK;
}

em_code em_run_rx(em_machine *machine, size_t n, size_t *done) { return run(machine, em_rx_step, n, done); }

em_code em_run_tx(em_machine *machine, size_t n, size_t *done) { return run(machine, em_tx_step, n, done); }

em_code em_wire_count(const em_machine *machine, size_t *count) {
  *count = ((const struct plain *)machine->held)->sent;
  return EM_OK;
}

em_code em_wire_frame(const em_machine *machine, size_t index, uint8_t *out, size_t room, size_t *length) {
  const struct plain *p = machine->held;
  if (index >= p->sent) return EM_NO_FRAME;
  *length = p->wire[index].length;
  if (*length > room) return EM_ROOM;
  memcpy(out, p->wire[index].octets, *length);
  return EM_OK;
}

/* What a frame's event changed is put back. */
static void undo(struct plain *p, struct record *record) {
  const em_note *note = &record->note;
  if (note->kind == EM_STORED) {
    p->waiting--;
    count(p, true, note->length, UINT32_MAX);
  } else if (note->kind == EM_WROTE) {
    memcpy(p->memory + record->where, record->octets, record->old);
    memcpy(p->memory + record->end, record->octets + record->old, 8);
    take_out(p, record->where, record->old);
    take_out(p, record->end, 8);
    p->oldest = (p->oldest + SLOTS - 1) % SLOTS;
    p->waiting++;
    *word(p, RDH) = note->value, *word(p, ICR) = record->icr;
  } else if (note->kind == EM_SENT) {
    p->memory[record->where + 12] &= (uint8_t)~1;
    take_out(p, record->where + 12, 1);
    free(p->wire[--p->sent].octets);
    count(p, false, note->length, UINT32_MAX);
    *word(p, TDH) = note->value, *word(p, ICR) = record->icr;
  }
}

em_code em_back(em_machine *machine, size_t n, size_t *done) {
  struct plain *p = of(machine);
  for (*done = 0; *done < n && p->count > 0; ++*done) {
    size_t at = p->first + --p->count;
    struct record *record = &p->ring[at < p->places ? at : at - p->places];
    if (record->note.kind == EM_READ || record->note.kind == EM_WRITE) {
      p->registers[record->where / 4] = record->old;
      continue;
    }
    if (record->note.kind == EM_POKE) memcpy(p->memory + record->where, record->octets, record->old);
    else undo(p, record);
    free(record->octets);
    record->octets = NULL;
  }
  return EM_OK;
}

em_code em_line(const em_machine *machine, uint32_t *level) {
  const struct plain *p = machine->held;
  *level = (p->registers[ICR / 4] & p->registers[IMS / 4]) != 0;
  return EM_OK;
}

/* Where a page differs, from the first octet to behind the last. */
static bool differs(const uint8_t *a, const uint8_t *b, size_t *first, size_t *last) {
  if (memcmp(a, b, PAGE) == 0) return false;
  for (*first = 0; a[*first] == b[*first]; ++*first) continue;
  for (*last = PAGE; a[*last - 1] == b[*last - 1]; --*last) continue;
  return true;
}

em_code em_sync_out(const em_machine *machine, uint8_t *ram, size_t size) {
  const uint8_t *memory = ((const struct plain *)machine->held)->memory;
  size_t first, last;
  if (size != ((const struct plain *)machine->held)->size) return EM_LENGTH;
  for (size_t at = 0; at < size; at += PAGE) {
    if (differs(memory + at, ram + at, &first, &last)) memcpy(ram + at + first, memory + at + first, last - first);
  }
  return EM_OK;
}

em_code em_sync_in(em_machine *machine, const uint8_t *ram, size_t size, size_t *writes) {
  size_t first, last;
  if (size != of(machine)->size) return EM_LENGTH;
  *writes = 0;
  for (size_t at = 0; at < size; at += PAGE) {
    if (!differs(of(machine)->memory + at, ram + at, &first, &last)) continue;
    if (em_poke(machine, at + first, ram + at + first, last - first) != EM_OK) return EM_MEMORY;
    ++*writes;
  }
  return EM_OK;
}
