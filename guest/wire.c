#include "wire.h"

#include <errno.h>
#include <fcntl.h>
#include <linux/if_tun.h>
#include <net/if.h>
#include <stdlib.h>
#include <string.h>
#include <sys/ioctl.h>
#include <sys/socket.h>
#include <unistd.h>

#include "address.h"
#include "say.h"
#include "start.h"

enum {
  BUFFER = 1 << 20, /* octets that the kernel keeps of frames that the guest has no room for */
  PEERS_END = 500   /* milliseconds that a program has to end when its input does */
};

void wire_make(struct wire *wire) {
  wire->kind = WIRE_AIR;
  wire->file = -1;
  wire->peer = 0;
  wire->lost = 0;
  stream_make(&wire->stream);
}

bool wire_pair(struct wire *wire, int *others) {
  int ends[2];
  const int octets = BUFFER;
  if (socketpair(AF_UNIX, SOCK_DGRAM | SOCK_CLOEXEC, 0, ends) != 0) return false;
  for (int i = 0; i < 2; i++) setsockopt(ends[i], SOL_SOCKET, SO_SNDBUF, &octets, sizeof octets);
  wire->kind = WIRE_PAIR;
  wire->file = ends[0];
  *others = ends[1];
  return true;
}

bool wire_bind(struct wire *wire, const char *paths) {
  const char *colon = strchr(paths, ':');
  if (!colon || !address_make(&wire->own, paths, (size_t)(colon - paths)) ||
      !address_make(&wire->other, colon + 1, strlen(colon + 1))) {
    say("--net unix:%s: two paths are wanted, with a colon between them: its own, and the other end's", paths);
    return false;
  }
  wire->file = socket(AF_UNIX, SOCK_DGRAM | SOCK_CLOEXEC, 0);
  if (wire->file < 0 || bind(wire->file, address_of(&wire->own), sizeof wire->own) != 0) {
    say("--net unix:%s: %s", paths, strerror(errno));
    return false;
  }
  wire->kind = WIRE_PATHS;
  return true;
}

bool wire_tap(struct wire *wire, const char *name) {
  struct ifreq device = {.ifr_flags = IFF_TAP | IFF_NO_PI};
  if (strlen(name) == 0 || strlen(name) >= sizeof device.ifr_name) {
    say("--tap %s: a device's name has 1 to %zu octets", name, sizeof device.ifr_name - 1);
    return false;
  }
  memcpy(device.ifr_name, name, strlen(name));
  wire->file = open("/dev/net/tun", O_RDWR | O_NONBLOCK | O_CLOEXEC);
  if (wire->file < 0 || ioctl(wire->file, TUNSETIFF, &device) != 0) {
    say("--tap %s: %s", name, strerror(errno));
    return false;
  }
  wire->kind = WIRE_TAP;
  return true;
}

bool wire_start(struct wire *wire, const char *text) {
  char shell[] = "/bin/sh", option[] = "-c", *command = strdup(text);
  char *words[] = {shell, option, command, NULL};
  int ends[2];
  if (!command || socketpair(AF_UNIX, SOCK_STREAM | SOCK_CLOEXEC, 0, ends) != 0) return false;
  const struct handed handed[] = {{ends[1], STDIN_FILENO}, {ends[1], STDOUT_FILENO}};
  wire->peer = start(words, handed, 2, true);
  close(ends[1]);
  free(command);
  wire->kind = WIRE_PEER;
  wire->file = ends[0];
  if (wire->peer < 0) wire->peer = 0;
  return wire->peer > 0;
}

void wire_close(struct wire *wire) {
  if (wire->file >= 0) close(wire->file);
  if (wire->kind == WIRE_PATHS) unlink(wire->own.sun_path);
  int status;
  if (wire->peer > 0 && !start_has_ended(wire->peer, PEERS_END, &status)) start_end(wire->peer);
  wire_make(wire);
}

/* The other end is gone: nothing comes from it any more. */
static void end(struct wire *wire) {
  if (wire->kind == WIRE_PEER) say("--peer: the program has closed its end: the wire ends in the air from here on");
  else say("--tap: the device is gone: the wire ends in the air from here on");
  uint64_t lost = wire->lost;
  wire_close(wire);
  wire->lost = lost;
}

static size_t take_from_tap(struct wire *wire, uint8_t *frame, size_t room) {
  ssize_t got = read(wire->file, frame, room);
  if (got >= 0) return (size_t)got;
  if (errno != EAGAIN && errno != EINTR) end(wire);
  return 0;
}

size_t wire_take(struct wire *wire, uint8_t *frame, size_t room) {
  switch (wire->kind) {
    case WIRE_AIR: return 0;
    case WIRE_TAP: return take_from_tap(wire, frame, room);
    case WIRE_PEER: {
      size_t length = stream_take(&wire->stream, wire->file, frame, room);
      if (wire->stream.is_ended) end(wire);
      return length;
    }
    case WIRE_PAIR:
    case WIRE_PATHS: break;
  }
  ssize_t got = recv(wire->file, frame, room, MSG_DONTWAIT | MSG_TRUNC);
  return got > 0 && (size_t)got <= room ? (size_t)got : 0;
}

void wire_send(struct wire *wire, const uint8_t *frame, size_t length) {
  const int how = MSG_DONTWAIT | MSG_NOSIGNAL;
  bool is_taken = true;
  switch (wire->kind) {
    case WIRE_AIR: break;
    case WIRE_PAIR: is_taken = send(wire->file, frame, length, how) == (ssize_t)length; break;
    case WIRE_PATHS:
      is_taken =
          sendto(wire->file, frame, length, how, address_of(&wire->other), sizeof wire->other) == (ssize_t)length;
      break;
    case WIRE_TAP: is_taken = write(wire->file, frame, length) == (ssize_t)length; break;
    case WIRE_PEER: is_taken = stream_put(&wire->stream, wire->file, frame, length); break;
  }
  if (!is_taken) wire->lost++;
}

bool wire_waits(const struct wire *wire) {
  return wire->kind == WIRE_PEER && stream_waits(&wire->stream);
}

void wire_go_on(struct wire *wire) {
  if (wire->kind != WIRE_PEER) return;
  stream_send(&wire->stream, wire->file);
  if (wire->stream.is_ended) end(wire);
}
