#include "capture.h"

#include <errno.h>
#include <fcntl.h>
#include <string.h>
#include <unistd.h>

#include "say.h"

enum { FILE_HEADER = 24, FRAME_HEADER = 16, ETHERNET = 1 };

static const uint32_t MICRO = 0xA1B2C3D4, NANO = 0xA1B23C4D;

static uint32_t number(const struct capture *capture, const uint8_t *at) {
  uint32_t low = at[0] | (uint32_t)at[1] << 8 | (uint32_t)at[2] << 16 | (uint32_t)at[3] << 24;
  return capture->is_turned ? __builtin_bswap32(low) : low;
}

static bool is_capture(struct capture *capture, const uint8_t *head) {
  for (int turned = 0; turned < 2; turned++) {
    capture->is_turned = turned;
    uint32_t magic = number(capture, head);
    capture->is_nano = magic == NANO;
    if (magic == MICRO || magic == NANO) return (number(capture, head + 20) & 0xFFFF) == ETHERNET;
  }
  return false;
}

bool capture_open(struct capture *capture, const char *path) {
  uint8_t head[FILE_HEADER];
  *capture = (struct capture){.file = fopen(path, "rbe")};
  if (!capture->file) {
    say("--pcap-in %s: %s", path, strerror(errno));
    return false;
  }
  if (fread(head, 1, sizeof head, capture->file) == sizeof head && is_capture(capture, head)) return true;
  say("--pcap-in %s: it is no capture of Ethernet frames in pcap's classic form", path);
  capture_close(capture);
  return false;
}

void capture_close(struct capture *capture) {
  if (capture->file) fclose(capture->file);
  capture->file = NULL;
  capture->has_frame = false;
}

bool capture_peek(struct capture *capture) {
  uint8_t head[FRAME_HEADER];
  if (capture->has_frame || !capture->file) return capture->has_frame;
  size_t got = fread(head, 1, sizeof head, capture->file);
  capture->length = got == sizeof head ? number(capture, head + 8) : 0;
  if (got != sizeof head || capture->length > sizeof capture->frame ||
      fread(capture->frame, 1, capture->length, capture->file) != capture->length) {
    if (got != 0) say("--pcap-in: the capture is cut short, or damaged: its last frames are left out");
    capture_close(capture);
    return false;
  }
  uint64_t time = number(capture, head) * UINT64_C(1000000000) +
                  number(capture, head + 4) * (capture->is_nano ? UINT64_C(1) : UINT64_C(1000));
  if (!capture->has_first) capture->first = time;
  capture->has_first = true;
  capture->due = time > capture->first ? time - capture->first : 0;
  capture->has_frame = true;
  return true;
}

void capture_take(struct capture *capture) {
  capture->has_frame = false;
}

FILE *capture_create(const char *path, bool over) {
  const uint32_t head[] = {MICRO, 4 << 16 | 2, 0, 0, 65535, ETHERNET};
  int descriptor = open(path, O_WRONLY | O_CREAT | O_CLOEXEC | (over ? O_TRUNC : O_EXCL), 0666);
  FILE *file = descriptor < 0 ? NULL : fdopen(descriptor, "wb");
  if (file && fwrite(head, sizeof head, 1, file) == 1) return file;
  if (errno == EEXIST) say("--pcap-out %s: it is there already; --over writes over it", path);
  else say("--pcap-out %s: %s", path, strerror(errno));
  if (file) fclose(file);
  else if (descriptor >= 0) close(descriptor);
  return NULL;
}

bool capture_put(FILE *file, uint64_t time, const uint8_t *frame, size_t length) {
  const uint32_t head[] = {(uint32_t)(time / 1000000000), (uint32_t)(time % 1000000000 / 1000), (uint32_t)length,
                           (uint32_t)length};
  return fwrite(head, sizeof head, 1, file) == 1 && fwrite(frame, 1, length, file) == length;
}
