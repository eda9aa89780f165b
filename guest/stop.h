/* What the guest is held at, by --stop-at. */
#ifndef GUEST_STOP_H
#define GUEST_STOP_H

#include <stdbool.h>
#include <stddef.h>
#include <stdint.h>

#include "device.h"

enum { MOST_STOPS = 8, MOST_WHY = 200 };

enum stop_kind {
  STOP_REFUSED, /* an access or a step of an engine is refused, or what an engine looks for is no guest memory */
  STOP_DROPPED, /* so many frames were dropped */
  STOP_FRAME,   /* so many frames have passed on the wire */
  STOP_ACCESS,  /* a register is accessed */
  STOP_WARNING, /* em_debug warns of what a driver gets wrong */
  STOP_KEY      /* Ctrl-C */
};

struct stop_at {
  enum stop_kind kind;
  uint64_t number;  /* of frames, or a register's offset */
  const char *rule; /* of a warning; NULL for each */
};

struct stops {
  struct stop_at list[MOST_STOPS];
  size_t count;
  uint64_t refused, dropped, frames; /* how many there were when it was asked last */
  bool is_accessed;                  /* one of the registers was accessed since */
  uint32_t accessed;
};

/* Reads what stands behind --stop-at: how many words that are, 1 or 2; 0, and told, where they say nothing. */
int stop_parse(char **words, struct stop_at *at);

bool stop_has(const struct stops *stops, enum stop_kind kind);

/* A register is accessed. */
void stop_accessed(struct stops *stops, uint32_t offset);

/* Whether the guest is to be held now, and why; `warnings` are those that came since it was asked last, a line each. */
bool stop_is_due(struct stops *stops, const struct tally *tally, const char *warnings, char why[MOST_WHY]);

#endif
