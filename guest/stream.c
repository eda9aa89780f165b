#include "stream.h"

#include <errno.h>
#include <string.h>
#include <sys/socket.h>

void stream_make(struct stream *stream) {
  stream->have = stream->from = stream->to = 0;
  stream->is_ended = false;
}

/* Receives until so many octets are there; false where they are not yet. */
static bool has(struct stream *stream, int socket, size_t wanted) {
  while (stream->have < wanted) {
    ssize_t got = recv(socket, stream->in + stream->have, wanted - stream->have, MSG_DONTWAIT);
    if (got < 0 && errno == EINTR) continue;
    if (got == 0 || (got < 0 && errno != EAGAIN && errno != EWOULDBLOCK)) stream->is_ended = true;
    if (got <= 0) return false;
    stream->have += (size_t)got;
  }
  return true;
}

size_t stream_take(struct stream *stream, int socket, uint8_t *frame, size_t room) {
  while (has(stream, socket, STREAM_HEAD)) {
    size_t length = (size_t)stream->in[0] << 8 | stream->in[1];
    if (!has(stream, socket, STREAM_HEAD + length)) return 0;
    stream->have = 0;
    if (length == 0 || length > room) continue;
    memcpy(frame, stream->in + STREAM_HEAD, length);
    return length;
  }
  return 0;
}

bool stream_waits(const struct stream *stream) {
  return stream->from < stream->to;
}

void stream_send(struct stream *stream, int socket) {
  while (stream_waits(stream)) {
    ssize_t put = send(socket, stream->out + stream->from, stream->to - stream->from, MSG_DONTWAIT | MSG_NOSIGNAL);
    if (put < 0 && errno == EINTR) continue;
    if (put < 0 && errno != EAGAIN && errno != EWOULDBLOCK) {
      stream->is_ended = true;
      stream->from = stream->to;
    }
    if (put <= 0) return;
    stream->from += (size_t)put;
  }
}

bool stream_put(struct stream *stream, int socket, const uint8_t *frame, size_t length) {
  stream_send(stream, socket);
  if (stream->is_ended || stream_waits(stream) || length > STREAM_ROOM - STREAM_HEAD) return false;
  stream->out[0] = (uint8_t)(length >> 8);
  stream->out[1] = (uint8_t)length;
  memcpy(stream->out + STREAM_HEAD, frame, length);
  stream->from = 0;
  stream->to = STREAM_HEAD + length;
  stream_send(stream, socket);
  return !stream->is_ended;
}
