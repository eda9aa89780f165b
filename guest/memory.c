#include "memory.h"

#include <inttypes.h>
#include <sys/stat.h>
#include <unistd.h>

#include "say.h"

/* Whether a file holds a region, and an address names each octet of it. */
static bool holds(int descriptor, const struct region *region) {
  struct stat seen;
  if (fstat(descriptor, &seen) != 0 || !S_ISREG(seen.st_mode) || seen.st_size < 0) return false;
  if (region->size == 0 || region->size > UINT64_MAX - region->address) return false;
  if (region->offset < 0 || region->offset > seen.st_size) return false;
  return region->size <= (uint64_t)(seen.st_size - region->offset);
}

void memory_close(struct memory *memory) {
  for (size_t i = 0; i < memory->count; i++) close(memory->parts[i].descriptor);
  memory->count = 0;
}

void memory_set(struct memory *memory, const struct message *message) {
  memory_close(memory);
  for (size_t i = 0; i < message->count; i++) {
    const struct region *region = &message->regions[i];
    if (holds(message->descriptors[i], region)) {
      memory->parts[memory->count].region = *region;
      memory->parts[memory->count++].descriptor = message->descriptors[i];
    } else {
      close(message->descriptors[i]);
      say("guest memory at %" PRIX64 " is left out: its file does not hold %" PRIu64 " octets there", region->address,
          region->size);
    }
  }
}

/* A piece of guest memory that lies in one file. */
struct piece {
  int descriptor;
  off_t at;
  size_t length;
};

/* The first octets of these that lie in one file; none where the first is not guest memory. */
static struct piece piece_at(const struct memory *memory, uint64_t address, size_t length) {
  for (size_t i = 0; i < memory->count; i++) {
    const struct region *region = &memory->parts[i].region;
    if (address < region->address || address - region->address >= region->size) continue;
    uint64_t into = address - region->address, left = region->size - into;
    return (struct piece){.descriptor = memory->parts[i].descriptor,
                          .at = (off_t)(region->offset + (int64_t)into),
                          .length = left < length ? (size_t)left : length};
  }
  return (struct piece){.descriptor = -1};
}

bool memory_read(const struct memory *memory, uint64_t address, uint8_t *out, size_t length) {
  while (length > 0) {
    struct piece piece = piece_at(memory, address, length);
    if (piece.length == 0) return false;
    ssize_t got = pread(piece.descriptor, out, piece.length, piece.at);
    if (got <= 0) return false;
    address += (uint64_t)got;
    out += got;
    length -= (size_t)got;
  }
  return true;
}

bool memory_write(const struct memory *memory, uint64_t address, const uint8_t *octets, size_t length) {
  while (length > 0) {
    struct piece piece = piece_at(memory, address, length);
    if (piece.length == 0) return false;
    ssize_t put = pwrite(piece.descriptor, octets, piece.length, piece.at);
    if (put <= 0) return false;
    address += (uint64_t)put;
    octets += put;
    length -= (size_t)put;
  }
  return true;
}
