/* Captures of the C library: what was sent, written and read back; each refusal; files that can't be read or written.

       captures FOLDER              tries all that; files are left in FOLDER
       captures told FILE           tells each frame of a capture, and what is wrong with it
       captures cut FILE            the same of the capture cut after each octet, by its octets in memory

   They end with `end`. The last line of the first is `N passed, M failed`. The linker hands write, read and rename to
   this file (--wrap). */
#define _POSIX_C_SOURCE 200809L
#include "harness.h"

#include <errno.h>
#include <fcntl.h>
#include <stdlib.h>
#include <sys/stat.h>
#include <unistd.h>

enum { PATH = 4000, TX_BUFFER = 0xA000, FRAMES = 3, HEADER = 24, RECORD = 16, ROOM = 1 << 20 };

static const char *folder;
static char path[PATH], behind[PATH];
static uint8_t file[ROOM], room[ROOM];

/* ---- calls of the system that fail: each `failing` is how many go well before, or -1 */

static long failing_write = -1, failing_read = -1, failing_rename = -1;
static int error;
static size_t most = SIZE_MAX; /* octets of one call */

/* Whether a call fails; by EINTR it does once. */
static bool fails(long *left) {
  if (*left < 0) return false;
  if (*left > 0) return (*left)--, false;
  if (error == EINTR) *left = -1;
  errno = error;
  return true;
}

ssize_t __real_write(int, const void *, size_t);
ssize_t __wrap_write(int, const void *, size_t);
ssize_t __real_read(int, void *, size_t);
ssize_t __wrap_read(int, void *, size_t);
int __real_rename(const char *, const char *);
int __wrap_rename(const char *, const char *);

ssize_t __wrap_write(int to, const void *octets, size_t length) {
  if (fails(&failing_write)) return error != 0 ? -1 : 0;
  return __real_write(to, octets, length < most ? length : most);
}

ssize_t __wrap_read(int from, void *octets, size_t length) {
  return fails(&failing_read) ? -1 : __real_read(from, octets, length < most ? length : most);
}

int __wrap_rename(const char *from, const char *to) { return fails(&failing_rename) ? -1 : __real_rename(from, to); }

/* ---- files */

static void named(const char *name) {
  snprintf(path, sizeof path, "%s/%s", folder, name);
  snprintf(behind, sizeof behind, "%s/%s.new", folder, name);
  unlink(path), unlink(behind);
}

static bool is_there(const char *name) { return access(name, F_OK) == 0; }

/* How many octets a file has, and puts them into `file`. */
static size_t in_file(const char *name) {
  int from = open(name, O_RDONLY);
  size_t length = 0;
  for (ssize_t done = 1; from >= 0 && done > 0; length += (size_t)done) {
    done = __real_read(from, file + length, ROOM - length);
  }
  if (from >= 0) close(from);
  return length;
}

static void put_file(const char *name, const void *octets, size_t length) {
  int to = open(name, O_WRONLY | O_CREAT | O_TRUNC, 0666);
  CHECK(to >= 0 && __real_write(to, octets, length) == (ssize_t)length);
  close(to);
}

/* ---- a machine that sent frames of 60, 600 and 61 octets */

static const size_t lengths[FRAMES] = {60, 600, 61};

static em_machine sent(void) {
  em_machine m = made();
  size_t done;
  OK(em_set_link(&m, true));
  for (unsigned i = 0; i < FRAMES; i++) {
    uint8_t frame[600];
    fill(frame, lengths[i]);
    frame[20] = (uint8_t)(i + 0xA0);
    OK(em_poke(&m, TX_BUFFER + 1024 * i, frame, lengths[i]));
    put_descriptor(&m, TX_RING + 16 * i, TX_BUFFER + 1024 * i, (unsigned)lengths[i], EOP | RS);
  }
  OK(em_write(&m, TDBAL, TX_RING));
  OK(em_write(&m, TDLEN, 16 * DESCRIPTORS));
  OK(em_write(&m, TCTL, TCTL_EN));
  OK(em_write(&m, TDT, FRAMES));
  OK(em_run_tx(&m, SIZE_MAX, &done));
  CHECK(done == FRAMES);
  return m;
}

static void put32(uint8_t *at, uint64_t value) {
  for (int i = 0; i < 4; i++) at[i] = (uint8_t)(value >> 8 * i);
}

/* The capture of these frames at these times, as its format has it. */
static size_t capture_of(const uint64_t *times, uint8_t *out) {
  static const uint8_t head[HEADER] = {0x4D, 0x3C, 0xB2, 0xA1, 2, 0, 4, 0, 0, 0, 0, 0, 0, 0, 0, 0, 0xFF, 0xFF, 0, 0, 1};
  size_t at = HEADER;
  memcpy(out, head, HEADER);
  for (unsigned i = 0; i < FRAMES; at += RECORD + lengths[i], i++) {
    put32(out + at, times[i] / 1000000000), put32(out + at + 4, times[i] % 1000000000);
    put32(out + at + 8, lengths[i]), put32(out + at + 12, lengths[i]);
    fill(out + at + RECORD, lengths[i]);
    out[at + RECORD + 20] = (uint8_t)(i + 0xA0);
  }
  return at;
}

static bool has(const char *name, const uint64_t *times) {
  uint8_t wanted[2048];
  size_t length = capture_of(times, wanted);
  return in_file(name) == length && memcmp(file, wanted, length) == 0;
}

static const uint64_t by_number[FRAMES] = {1000, 2000, 3000};

/* ---- out */

static void writes(void) {
  em_machine m = sent();
  const uint64_t times[FRAMES] = {0, UINT64_C(1700000000123456789), UINT64_MAX};
  const uint64_t most_times[FRAMES] = {0, times[1], UINT64_C(4294967295999999999)};
  uint32_t value;
  size_t before = reach(&m), count;
  named("sent.pcap");
  OK(em_pcap_write(&m, path, NULL));
  CHECK(has(path, by_number) && !is_there(behind));
  OK(em_pcap_write(&m, path, times)); /* in its place; a time is as large as a record allows */
  CHECK(has(path, most_times) && !is_there(behind));
  most = 7;
  OK(em_pcap_write(&m, path, NULL)); /* by short writes */
  most = SIZE_MAX;
  CHECK(has(path, by_number));
  /* it is no event, and hands nothing over */
  CHECK(reach(&m) == before);
  OK(em_wire_next(&m, room, ROOM, &count));
  CHECK(count == 60);
  /* what is taken back is not there */
  OK(em_back(&m, SIZE_MAX, &count));
  OK(em_pcap_write(&m, path, NULL));
  CHECK(in_file(path) == HEADER);
  OK(em_read(&m, STATUS, &value));
  em_free(&m);
  REFUSED(em_pcap_write(&m, path, NULL), EM_NOT_MADE);
  CHECK(in_file(path) == HEADER && blocks == 0);
}

/* A longer capture than what is gathered at once. */
static void writes_many(void) {
  em_machine m = EM_NO_MACHINE;
  em_pcap capture = EM_NO_PCAP;
  em_pcap_frame frame;
  size_t done, length;
  unsigned count = 0;
  uint8_t octets[1514];
  fill(octets, sizeof octets);
  OK(em_make(&m, MEMORY, 16777216, MAC));
  OK(em_set_link(&m, true));
  OK(em_poke(&m, TX_BUFFER, octets, sizeof octets));
  for (unsigned i = 0; i < DESCRIPTORS; i++) put_descriptor(&m, TX_RING + 16 * i, TX_BUFFER, 1514 - i, EOP);
  OK(em_write(&m, TDBAL, TX_RING));
  OK(em_write(&m, TDLEN, 16 * DESCRIPTORS));
  OK(em_write(&m, TCTL, TCTL_EN));
  for (unsigned i = 1; i <= 300; i++) {
    OK(em_write(&m, TDT, i % DESCRIPTORS));
    OK(em_run_tx(&m, SIZE_MAX, &done));
  }
  named("many.pcap");
  OK(em_pcap_write(&m, path, NULL));
  OK(em_pcap_open(&capture, path));
  while (em_pcap_next(&capture, room, ROOM, &length, &frame) == EM_OK) {
    MUST(length == 1514 - count % DESCRIPTORS && memcmp(room, octets, length) == 0);
    MUST(frame.nanoseconds == 1000 * ++count && frame.original == length && frame.timed == 1);
  }
  CHECK(count == 300);
  em_pcap_close(&capture);
  em_free(&m);
}

/* Files that can't be written: what was there stays, and nothing else does. */
static void is_not_written(void) {
  em_machine m = sent();
  char far[PATH];
  named("kept.pcap");
  put_file(path, "mine", 4);
  for (int how = 0; how < 3; how++) { /* a full disk, from the first write on or behind it; a write of nothing */
    error = how < 2 ? ENOSPC : 0, failing_write = how == 1, most = how == 1 ? 100 : SIZE_MAX;
    errno = 0;
    REFUSED(em_pcap_write(&m, path, NULL), EM_FILE);
    CHECK(errno == (how < 2 ? ENOSPC : EIO) && in_file(path) == 4 && !is_there(behind));
  }
  failing_write = -1, most = SIZE_MAX;
  error = EXDEV, failing_rename = 0;
  REFUSED(em_pcap_write(&m, path, NULL), EM_FILE);
  CHECK(errno == EXDEV && in_file(path) == 4 && !is_there(behind));
  failing_rename = -1;
  /* another's file of the name */
  put_file(behind, "other", 5);
  REFUSED(em_pcap_write(&m, path, NULL), EM_FILE);
  CHECK(errno == EEXIST && in_file(path) == 4 && in_file(behind) == 5);
  unlink(behind);
  /* interrupted, it goes on */
  error = EINTR, failing_write = 0;
  OK(em_pcap_write(&m, path, NULL));
  CHECK(has(path, by_number) && failing_write == -1);
  /* no folder, a folder, and no name */
  snprintf(far, sizeof far, "%s/none/sent.pcap", folder);
  REFUSED(em_pcap_write(&m, far, NULL), EM_FILE);
  CHECK(errno == ENOENT);
  REFUSED(em_pcap_write(&m, folder, NULL), EM_FILE);
  CHECK(errno == EISDIR);
  REFUSED(em_pcap_write(&m, "", NULL), EM_FILE);
  unlink(".new");
  /* what is no file is written to, and stays what it is */
  OK(em_pcap_write(&m, "/dev/null", NULL));
  struct stat null;
  CHECK(stat("/dev/null", &null) == 0 && S_ISCHR(null.st_mode) && !is_there("/dev/null.new"));
  if (access("/dev/full", W_OK) == 0) {
    REFUSED(em_pcap_write(&m, "/dev/full", NULL), EM_FILE);
    CHECK(errno == ENOSPC);
  }
  em_free(&m);
  CHECK(blocks == 0);
}

/* ---- in */

static const em_pcap_frame untold = {7, 7, 7};

static bool is_untold(const em_pcap_frame *frame, size_t length) {
  return frame->nanoseconds == 7 && frame->original == 7 && frame->timed == 7 && length == 7;
}

static void reads(void) {
  const uint64_t times[FRAMES] = {5, UINT64_C(1700000000123456789), UINT64_C(4294967295999999999)};
  em_pcap capture = EM_NO_PCAP;
  em_pcap_frame frame = untold;
  size_t length = 7, offset = 7, all = capture_of(times, file);
  uint8_t *own = malloc(all);
  REFUSED(em_pcap_next(&capture, room, ROOM, &length, &frame), EM_NOT_OPEN);
  REFUSED(em_pcap_fault(&capture, &offset), EM_NOT_OPEN);
  CHECK(is_untold(&frame, length) && offset == 7 && own != NULL);
  em_pcap_close(&capture);
  memcpy(own, file, all);
  OK(em_pcap_of(&capture, own, all));
  memset(own, 0, all); /* they are copied */
  free(own);
  CHECK(capture.made);
  REFUSED(em_pcap_of(&capture, file, all), EM_OPEN_ALREADY);
  REFUSED(em_pcap_open(&capture, "none"), EM_OPEN_ALREADY);
  REFUSED(em_pcap_fault(&capture, &offset), EM_CAPTURE_END);
  for (unsigned i = 0; i < FRAMES; i++) {
    /* without room it is the next one still */
    frame = untold, room[0] = 9;
    REFUSED(em_pcap_next(&capture, room, lengths[i] - 1, &length, &frame), EM_ROOM);
    CHECK(length == lengths[i] && room[0] == 9 && is_untold(&frame, 7));
    room[lengths[i]] = 9;
    OK(em_pcap_next(&capture, room, lengths[i], &length, &frame));
    CHECK(length == lengths[i] && room[lengths[i]] == 9 && room[20] == i + 0xA0 && room[0] == 0xFF);
    CHECK(frame.nanoseconds == times[i] && frame.original == length && frame.timed == 1);
  }
  for (int i = 0; i < 2; i++) {
    frame = untold, length = 7;
    REFUSED(em_pcap_next(&capture, room, 0, &length, &frame), EM_CAPTURE_END);
    CHECK(is_untold(&frame, length) && offset == 7);
  }
  em_pcap_close(&capture);
  CHECK(!capture.made && blocks == 0);
  em_pcap_close(&capture);
  REFUSED(em_pcap_next(&capture, room, ROOM, &length, &frame), EM_NOT_OPEN);
}

/* Each fault, behind the frames before it, and each time. */
static void tells_faults(void) {
  static const struct {
    size_t at, length; /* these octets become others, or the file ends there */
    uint8_t octets[4];
    em_code code;
    size_t frames, offset;
  } faults[] = {
    {0, 4, {1, 2, 3, 4}, EM_CAPTURE_MAGIC, 0, 0}, {4, 2, {3, 0}, EM_CAPTURE_VERSION, 0, 0},
    {20, 1, {101}, EM_CAPTURE_LINK, 0, 0}, {0, 0, {0}, EM_CAPTURE_CUT, 0, 0}, {23, 0, {0}, EM_CAPTURE_CUT, 0, 0},
    {24 + 8, 4, {0, 0, 1, 0}, EM_CAPTURE_LENGTH, 0, 24}, {24 + 76 + 15, 0, {0}, EM_CAPTURE_CUT, 1, 24 + 76},
    {24 + 76 + 616 + 76, 0, {0}, EM_CAPTURE_CUT, 2, 24 + 76 + 616},
  };
  for (size_t i = 0; i < sizeof faults / sizeof *faults; i++) {
    em_pcap capture = EM_NO_PCAP;
    em_pcap_frame frame;
    size_t all = capture_of(by_number, file), length, offset = 7;
    memcpy(file + faults[i].at, faults[i].octets, faults[i].length);
    if (faults[i].length == 0) all = faults[i].at;
    OK(em_pcap_of(&capture, file, all));
    OK(em_pcap_fault(&capture, &offset));
    CHECK(offset == faults[i].offset);
    for (size_t k = 0; k < faults[i].frames; k++) OK(em_pcap_next(&capture, room, ROOM, &length, &frame));
    for (int k = 0; k < 2; k++) {
      frame = untold, length = 7;
      REFUSED(em_pcap_next(&capture, room, ROOM, &length, &frame), faults[i].code);
      CHECK(is_untold(&frame, length));
    }
    OK(em_pcap_fault(&capture, &offset));
    em_pcap_close(&capture);
  }
  /* of a pcapng: a section header alone, one whose length is wrong, and a packet of no interface */
  static const uint8_t section[60] = {0x0A, 0x0D, 0x0D, 0x0A, 28, 0, 0, 0, 0x4D, 0x3C, 0x2B, 0x1A, 1, 0, 0, 0,
                                      0xFF, 0xFF, 0xFF, 0xFF, 0xFF, 0xFF, 0xFF, 0xFF, 28, 0, 0, 0,
                                      6, 0, 0, 0, 32, 0, 0, 0, [56] = 32};
  const struct { size_t length; uint8_t wrong; em_code code; } ends[] = {
    {28, 28, EM_CAPTURE_END}, {28, 24, EM_CAPTURE_BLOCK}, {60, 28, EM_CAPTURE_INTERFACE}
  };
  for (int i = 0; i < 3; i++) {
    em_pcap capture = EM_NO_PCAP;
    em_pcap_frame frame;
    size_t length;
    memcpy(file, section, sizeof section);
    file[24] = ends[i].wrong;
    OK(em_pcap_of(&capture, file, ends[i].length));
    REFUSED(em_pcap_next(&capture, room, ROOM, &length, &frame), ends[i].code);
    em_pcap_close(&capture);
  }
  CHECK(blocks == 0);
}

static void opens_files(void) {
  em_pcap capture = EM_NO_PCAP;
  em_pcap_frame frame;
  size_t length, all = capture_of(by_number, room);
  named("open.pcap");
  put_file(path, room, all);
  for (size_t part = 1; part <= 128; part *= 128) { /* by octets, and by pieces */
    most = part, error = EINTR, failing_read = 3;
    OK(em_pcap_open(&capture, path));
    CHECK(failing_read == -1);
    most = SIZE_MAX;
    for (unsigned i = 0; i < FRAMES; i++) OK(em_pcap_next(&capture, room, ROOM, &length, &frame));
    CHECK(length == lengths[FRAMES - 1] && frame.nanoseconds == by_number[FRAMES - 1]);
    REFUSED(em_pcap_next(&capture, room, ROOM, &length, &frame), EM_CAPTURE_END);
    em_pcap_close(&capture);
  }
  error = EIO, failing_read = 0;
  REFUSED(em_pcap_open(&capture, path), EM_FILE);
  CHECK(errno == EIO && !capture.made);
  failing_read = -1;
  REFUSED(em_pcap_open(&capture, folder), EM_FILE);
  CHECK(errno == EISDIR);
  unlink(path);
  REFUSED(em_pcap_open(&capture, path), EM_FILE);
  CHECK(errno == ENOENT && !capture.made);
  OK(em_pcap_open(&capture, "/dev/null"));
  REFUSED(em_pcap_next(&capture, room, ROOM, &length, &frame), EM_CAPTURE_CUT);
  em_pcap_close(&capture);
  CHECK(blocks == 0);
}

/* Out of one machine, and into another. */
static void goes_around(void) {
  em_machine from = sent(), to = made();
  em_pcap capture = EM_NO_PCAP;
  em_pcap_frame frame;
  em_note event;
  em_fifo_state fifo;
  size_t length, count = 0;
  named("around.pcap");
  OK(em_pcap_write(&from, path, NULL));
  set_receiving(&to);
  OK(em_pcap_open(&capture, path));
  for (; em_pcap_next(&capture, room, ROOM, &length, &frame) == EM_OK; count++) {
    OK(em_arrive(&to, room, length, &event));
    CHECK(event.kind == EM_STORED && event.length == lengths[count]);
  }
  OK(em_fifo(&to, &fifo));
  CHECK(fifo.frames == FRAMES);
  em_pcap_close(&capture), em_free(&from), em_free(&to);
}

/* Each request for memory is refused in turn, alone and with all after it. */
static void is_refused_memory(void) {
  em_machine m = sent();
  em_pcap capture = EM_NO_PCAP;
  em_pcap_frame frame;
  size_t length, all = capture_of(by_number, room);
  named("refused.pcap");
  put_file(path, room, all);
  memcpy(file, room, all);
  for (int i = 0; i < 6; i++) {
    const long held = blocks;
    em_code code = EM_MEMORY;
    long n = 0;
    once = i & 1;
    for (; code == EM_MEMORY && n < 100; n++) {
      granted = n;
      code = i < 2 ? em_pcap_of(&capture, file, all)
        : i < 4 ? em_pcap_open(&capture, path) : em_pcap_write(&m, path, NULL);
      granted = -1;
      MUST(code == EM_OK || (code == EM_MEMORY && blocks == held && !capture.made && !is_there(behind)));
    }
    CHECK(code == EM_OK && n > 1);
    if (i == 0) { /* to hand them over takes none */
      requests = 0, granted = 0;
      for (unsigned k = 0; k < FRAMES; k++) OK(em_pcap_next(&capture, room, ROOM, &length, &frame));
      REFUSED(em_pcap_fault(&capture, &length), EM_CAPTURE_END);
      REFUSED(em_pcap_next(&capture, room, ROOM, &length, &frame), EM_CAPTURE_END);
      em_pcap_close(&capture);
      CHECK(requests == 0);
      granted = -1;
    }
    em_pcap_close(&capture);
  }
  em_free(&m);
  CHECK(blocks == 0);
}

/* ---- what a capture gives, as lines */

static void tell(em_pcap *capture) {
  em_pcap_frame frame;
  size_t length, offset;
  em_code code;
  while ((code = em_pcap_next(capture, room, ROOM, &length, &frame)) == EM_OK) {
    printf("%u %s ", frame.original, length < frame.original ? "cut" : "whole");
    if (frame.timed) printf("%llu ", (unsigned long long)frame.nanoseconds);
    else printf("- ");
    for (size_t i = 0; i < length; i++) printf("%02X", room[i]);
    printf("\n");
  }
  const char *text = em_strerror(code);
  if (code != EM_CAPTURE_END && em_pcap_fault(capture, &offset) == EM_OK) {
    printf("octet %zu: %.*s\n", offset, (int)strcspn(text, ":"), text);
  }
  printf("end\n");
  em_pcap_close(capture);
}

static int tell_all(const char *how, const char *name) {
  em_pcap capture = EM_NO_PCAP;
  if (!strcmp(how, "told")) {
    if (em_pcap_open(&capture, name) != EM_OK) return 1;
    tell(&capture);
    return 0;
  }
  const size_t all = in_file(name);
  for (size_t end = 0; end < all; end++) {
    uint8_t *own = malloc(end + 1); /* (no octet behind them is read) */
    if (own == NULL) return 1;
    memcpy(own + 1, file, end);
    if (em_pcap_of(&capture, own + 1, end) != EM_OK) return 1;
    free(own);
    tell(&capture);
  }
  return blocks != 0;
}

int main(int words, char **word) {
  if (words == 3) return tell_all(word[1], word[2]);
  if (words != 2) return 1;
  folder = word[1];
  writes();
  writes_many();
  is_not_written();
  reads();
  tells_faults();
  opens_files();
  goes_around();
  is_refused_memory();
  return tell_counts();
}
