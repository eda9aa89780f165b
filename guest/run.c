#include "run.h"

#include <errno.h>
#include <fcntl.h>
#include <inttypes.h>
#include <stdarg.h>
#include <stdio.h>
#include <string.h>
#include <unistd.h>

#include "say.h"

enum { FULL = 65536 }; /* octets, behind which there is room for the longest line: a frame of 20,000 octets */

void run_open_none(struct run *run) {
  run->file = -1;
  run->have = 0;
  run->written = run->lines = 0;
}

bool run_open(struct run *run, const char *path, bool over) {
  run_open_none(run);
  run->file = open(path, O_WRONLY | O_CREAT | O_CLOEXEC | (over ? O_TRUNC : O_EXCL), 0666);
  if (run->file >= 0) return true;
  if (errno == EEXIST) say("--run %s: it is there already; --over writes over it", path);
  else say("--run %s: %s", path, strerror(errno));
  return false;
}

/* The file refuses octets behind these: it is left with the whole lines among them. */
static void give_up(struct run *run, size_t done, int error) {
  while (done > 0 && run->text[done - 1] != '\n') done--;
  say("the run can't be written (%s): it ends here, and the guest goes on", strerror(error));
  if (ftruncate(run->file, (off_t)(run->written + done)) != 0 && errno != EINVAL) say("its last line may be cut short");
  close(run->file);
  run->file = -1;
}

void run_flush(struct run *run) {
  size_t done = 0;
  while (run->file >= 0 && done < run->have) {
    ssize_t put = write(run->file, run->text + done, run->have - done);
    if (put > 0) done += (size_t)put;
    else if (put == 0 || errno != EINTR) give_up(run, done, put == 0 ? EIO : errno);
  }
  run->written += done;
  run->have = 0;
}

void run_close(struct run *run) {
  run_flush(run);
  if (run->file >= 0) close(run->file);
  run->file = -1;
}

/* Adds to the line. (What has no room is left out; no line is so long.) */
static void put(struct run *run, const char *text, size_t length) {
  size_t room = sizeof run->text - run->have;
  if (length > room) length = room;
  memcpy(run->text + run->have, text, length);
  run->have += length;
}

/* Puts a short text; none of this file is longer than the room here. */
__attribute__((format(printf, 2, 3))) static void put_text(struct run *run, const char *format, ...) {
  char text[256];
  va_list words;
  va_start(words, format);
  int length = vsnprintf(text, sizeof text, format, words);
  va_end(words);
  if (length > 0) put(run, text, (size_t)length < sizeof text ? (size_t)length : sizeof text - 1);
}

static void put_octets(struct run *run, const uint8_t *octets, size_t length) {
  static const char digits[] = "0123456789ABCDEF";
  for (size_t i = 0; i < length; i++) {
    const char pair[] = {digits[octets[i] >> 4], digits[octets[i] & 15]};
    put(run, pair, sizeof pair);
  }
}

static void end_line(struct run *run) {
  put(run, "\n", 1);
  run->lines++;
  if (run->have >= FULL) run_flush(run);
}

void run_head(struct run *run, uint32_t profile, uint64_t memory, uint64_t budget, const uint8_t mac[6]) {
  if (run->file < 0) return;
  put_text(run, "# em_debug --memory %" PRIu64 "G --budget %" PRIu64, memory >> 30, budget);
  put_text(run, "%s --mac ", profile == EM_PROFILE_ADAPTER ? " --profile adapter" : "");
  put_octets(run, mac, 6);
  end_line(run);
}

static void put_source(struct run *run, struct source source) {
  if (source.counter != 0) put_text(run, " @ %s0x%" PRIX64, source.is_before ? "before " : "", source.counter);
}

/* The answer of an event that was refused: the name before the colon of the library's sentence. */
static void put_refusal(struct run *run, uint32_t refusal) {
  uint8_t text[128];
  size_t length = 0;
  if (em_refusal(refusal, text, sizeof text, &length) != EM_OK) return;
  const uint8_t *colon = memchr(text, ':', length);
  put_text(run, " = refused %.*s", (int)(colon ? colon - text : (ptrdiff_t)length), (const char *)text);
}

void run_read(struct run *run, uint32_t offset, uint32_t refusal, uint32_t value, struct source source) {
  if (run->file < 0) return;
  put_text(run, "r %05" PRIX32, offset);
  if (refusal == EM_OK) put_text(run, " = %08" PRIX32, value);
  else put_refusal(run, refusal);
  put_source(run, source);
  end_line(run);
}

void run_write(struct run *run, uint32_t offset, uint32_t value, uint32_t refusal, struct source source,
               const char *remark) {
  if (run->file < 0) return;
  put_text(run, "w %05" PRIX32 " %08" PRIX32, offset, value);
  if (refusal != EM_OK) put_refusal(run, refusal);
  put_source(run, source);
  if (remark) put_text(run, " # %s", remark);
  end_line(run);
}

void run_poke(struct run *run, uint64_t address, const uint8_t *octets, size_t length, struct source source) {
  if (run->file < 0) return;
  put_text(run, "poke %06" PRIX64 " ", address);
  put_octets(run, octets, length);
  put_source(run, source);
  end_line(run);
}

void run_arrive(struct run *run, const uint8_t *frame, size_t length, uint32_t refusal, const em_note *note) {
  static const char *const dropped[] = {"down", "disabled", "rejected", "undersize", "oversize", "missed"};
  if (run->file < 0) return;
  put_text(run, "arrive ");
  put_octets(run, frame, length);
  if (refusal != EM_OK) put_refusal(run, refusal);
  else if (note->kind == EM_STORED) put_text(run, " = stored");
  else if (note->kind >= EM_DOWN && note->kind <= EM_MISSED)
    put_text(run, " = dropped %s", dropped[note->kind - EM_DOWN]);
  end_line(run);
}

void run_step(struct run *run, const char *engine, uint32_t refusal, const em_note *note) {
  if (run->file < 0) return;
  put_text(run, "%s", engine);
  if (refusal != EM_OK) put_refusal(run, refusal);
  else if (note->kind == EM_WROTE) put_text(run, " = wrote %" PRIu32, note->value);
  else if (note->kind == EM_FETCHED) put_text(run, " = fetched %" PRIu32, note->value);
  else if (note->kind == EM_SENT) put_text(run, " = sent %" PRIu32 " %" PRIu32, note->value, note->length);
  else put_text(run, " = idle");
  end_line(run);
}

void run_link(struct run *run, bool is_up) {
  if (run->file < 0) return;
  put_text(run, "link %s", is_up ? "up" : "down");
  end_line(run);
}

void run_remark(struct run *run, const char *format, ...) {
  char text[200];
  va_list words;
  if (run->file < 0) return;
  va_start(words, format);
  vsnprintf(text, sizeof text, format, words);
  va_end(words);
  put_text(run, "# %s", text);
  end_line(run);
}
