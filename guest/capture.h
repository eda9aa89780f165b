/* Captures of frames, in pcap's classic form: one is read at its times, another one is written. */
#ifndef GUEST_CAPTURE_H
#define GUEST_CAPTURE_H

#include <stdbool.h>
#include <stddef.h>
#include <stdint.h>
#include <stdio.h>

/* A capture that is read. */
struct capture {
  FILE *file;     /* NULL where there is none, or nothing more of it */
  bool is_turned; /* its numbers have their high octet first */
  bool is_nano;   /* its times have nanoseconds, and not microseconds */
  bool has_first, has_frame;
  uint64_t first, due; /* nanoseconds: of its first frame, and of this one behind that */
  size_t length;
  uint8_t frame[65536];
};

/* Opens a capture of Ethernet frames; false, and told, where it is none. */
bool capture_open(struct capture *capture, const char *path);
void capture_close(struct capture *capture);

/* Has the next frame in `frame`, where there is one; it is gone when it was taken. */
bool capture_peek(struct capture *capture);
void capture_take(struct capture *capture);

/* Begins a capture that is written; NULL, and told, where it can't be. */
FILE *capture_create(const char *path, bool over);

/* Writes a frame of this time, in nanoseconds since 1970. False where the file refuses it. */
bool capture_put(FILE *file, uint64_t time, const uint8_t *frame, size_t length);

#endif
