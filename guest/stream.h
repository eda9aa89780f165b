/* Frames in a stream of octets: each stands behind its length, of two octets, the high one first. So VDE's
   vde_plug has them on its standard streams. */
#ifndef GUEST_STREAM_H
#define GUEST_STREAM_H

#include <stdbool.h>
#include <stddef.h>
#include <stdint.h>

enum { STREAM_HEAD = 2, STREAM_ROOM = STREAM_HEAD + 65535 };

/* A socket's stream, both ways: what came of a frame that is not whole yet, and what is left to send of one. */
struct stream {
  uint8_t in[STREAM_ROOM], out[STREAM_ROOM];
  size_t have, from, to;
  bool is_ended; /* the other end is gone */
};

void stream_make(struct stream *stream);

/* Takes the next frame that has 1 to `room` octets, without waiting; 0 where none is whole yet. */
size_t stream_take(struct stream *stream, int socket, uint8_t *frame, size_t room);

/* Sends a frame, without waiting; false where the other end has not taken those before, or is gone. */
bool stream_put(struct stream *stream, int socket, const uint8_t *frame, size_t length);

/* Whether something is left to send; and sends what the other end takes of it. */
bool stream_waits(const struct stream *stream);
void stream_send(struct stream *stream, int socket);

#endif
