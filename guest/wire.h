/* The other end of the adapter's wire: QEMU's own network, two sockets that have paths, a TAP device of the host's, or
   another program. */
#ifndef GUEST_WIRE_H
#define GUEST_WIRE_H

#include <stdbool.h>
#include <stddef.h>
#include <stdint.h>
#include <sys/types.h>
#include <sys/un.h>

#include "stream.h"

enum wire_kind {
  WIRE_AIR,   /* there is none: what is sent is gone */
  WIRE_PAIR,  /* a pair of sockets of datagrams, a frame each, as QEMU's netdev `socket` has one */
  WIRE_PATHS, /* such a socket, and the other end's has a path */
  WIRE_TAP,   /* a TAP device */
  WIRE_PEER   /* a program's standard streams */
};

struct wire {
  enum wire_kind kind;
  int file; /* where frames come from and go to; -1 where there is none */
  struct sockaddr_un own, other;
  struct stream stream;
  pid_t peer;    /* the program, or 0 */
  uint64_t lost; /* frames that the other end did not take */
};

void wire_make(struct wire *wire);

/* A pair of sockets: this one's, and one for QEMU. False where there is none. */
bool wire_pair(struct wire *wire, int *others);

/* A socket at the path OWN, whose frames go to that at the path OTHER: the text is `OWN:OTHER`. False, and told, where
   it can't be. */
bool wire_bind(struct wire *wire, const char *paths);

/* The TAP device of this name. False, and told, where it can't be had. */
bool wire_tap(struct wire *wire, const char *name);

/* A program that a shell starts by this text. False, and told, where it can't be started. */
bool wire_start(struct wire *wire, const char *text);

void wire_close(struct wire *wire);

/* Takes a frame, without waiting; 0 where there is none. Where the other end is gone that is told, and the wire ends in
   the air. */
size_t wire_take(struct wire *wire, uint8_t *frame, size_t room);

void wire_send(struct wire *wire, const uint8_t *frame, size_t length);

/* Whether a frame waits until the other end takes it; and sends what it takes. */
bool wire_waits(const struct wire *wire);
void wire_go_on(struct wire *wire);

#endif
