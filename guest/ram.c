#include "ram.h"

#include <string.h>

enum { DESCRIPTOR = 16, LENGTH = 8, STATUS = 12, TRANSMIT_COMMAND = 11, EXTENDED = 0x20 };

static uint64_t address_in(const uint8_t octets[8]) {
  uint64_t value = 0;
  for (unsigned i = 0; i < 8; i++) value |= (uint64_t)octets[i] << 8 * i;
  return value;
}

static bool is_missing(struct ram *ram, uint64_t address, size_t length) {
  const uint64_t first = ram->work.address;
  const bool is_descriptor = address >= first && address + length <= first + DESCRIPTOR;
  ram->what = is_descriptor ? "a descriptor" : "a buffer";
  ram->where = address;
  return false;
}

/* Which octets of a piece the model has otherwise. (What leaves the model's memory it has not.) */
static void compare(const em_machine *machine, struct piece *piece) {
  uint8_t held[MOST_PIECE];
  size_t end = piece->length;
  piece->first = piece->count = 0;
  if (em_peek(machine, piece->address, held, end) != EM_OK) return;
  while (piece->first < end && held[piece->first] == piece->octets[piece->first]) piece->first++;
  while (end > piece->first && held[end - 1] == piece->octets[end - 1]) end--;
  piece->count = end - piece->first;
}

/* Learns of a transmit descriptor how many octets its buffer has. */
static void learn(struct work *work, const uint8_t octets[DESCRIPTOR]) {
  if (work->side != EM_TX_RING || octets[TRANSMIT_COMMAND] & EXTENDED) return;
  work->buffer = octets[LENGTH] | (size_t)octets[LENGTH + 1] << 8;
}

/* Reads octets for the model into the next piece; NULL where they are no guest memory. */
static struct piece *fetch(struct ram *ram, uint64_t address, size_t length) {
  if (length > MOST_PIECE || ram->count == MOST_PIECES) return NULL;
  struct piece *piece = &ram->pieces[ram->count];
  piece->address = address;
  piece->length = length;
  if (!memory_read(&ram->memory, address, piece->octets, length)) return is_missing(ram, address, length), NULL;
  if (address == ram->work.address && length == DESCRIPTOR) learn(&ram->work, piece->octets);
  compare(ram->machine, piece);
  ram->count++;
  return piece;
}

static bool read_ram(void *context, uint64_t address, uint8_t *out, size_t length) {
  const struct piece *piece = fetch(context, address, length);
  if (piece) memcpy(out, piece->octets, length);
  return piece != NULL;
}

/* (The status comes last: a guest that sees DD there sees the rest of the descriptor too.) */
static bool write_ram(void *context, uint64_t address, const uint8_t *octets, size_t length) {
  struct ram *ram = context;
  const struct memory *memory = &ram->memory;
  const size_t status = STATUS - LENGTH;
  bool is_end = address == ram->work.address + LENGTH && length == DESCRIPTOR - LENGTH;
  bool is_written = is_end ? memory_write(memory, address, octets, status) &&
                                 memory_write(memory, address + status + 1, octets + status + 1, length - status - 1) &&
                                 memory_write(memory, address + status, octets + status, 1)
                           : memory_write(memory, address, octets, length);
  return is_written || is_missing(ram, address, length);
}

bool ram_attach(struct ram *ram, em_machine *machine) {
  const em_ram functions = {ram, read_ram, write_ram, NULL, 0};
  ram->machine = machine;
  return em_attach(machine, &functions) == EM_OK;
}

void ram_begin(struct ram *ram, const em_ring_setup *setup, uint32_t side, uint32_t index) {
  const uint64_t address = setup->base + (uint64_t)DESCRIPTOR * index;
  ram->work = (struct work){.side = side, .address = address, .buffer = setup->buffer};
  ram->count = 0;
  ram->what = NULL;
}

/* Makes the memory write of a piece. */
static void bring(em_machine *machine, const struct piece *piece) {
  size_t writes;
  if (em_sync_in_range(machine, piece->address, piece->octets, piece->length, &writes) != EM_OK) return; /* (it stays) */
}

void ram_end(struct ram *ram, em_machine *machine, struct run *run, struct source source, bool is_refused) {
  for (size_t i = 0; i < ram->count; i++) {
    const struct piece *piece = &ram->pieces[i];
    if (piece->count == 0) continue;
    if (is_refused) bring(machine, piece);
    run_poke(run, piece->address + piece->first, piece->octets + piece->first, piece->count, source);
  }
}

bool ram_bring(struct ram *ram, em_machine *machine, struct run *run, struct source source, size_t *octets) {
  const struct piece *piece = fetch(ram, ram->work.address, DESCRIPTOR);
  *octets = DESCRIPTOR;
  if (!piece) return false;
  bring(machine, piece);
  if (ram->work.side == EM_TX_RING && ram->work.buffer <= MOST_PIECE && ram->work.buffer > 0) {
    piece = fetch(ram, address_in(piece->octets), ram->work.buffer);
    *octets += ram->work.buffer;
    if (piece) bring(machine, piece);
  }
  ram_end(ram, machine, run, source, false);
  return piece != NULL;
}
