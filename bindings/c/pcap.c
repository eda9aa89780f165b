/* Captures: the file that the frames go to which a machine sent, and the one that frames come from. The octets of the
   one are of the crate em_c, which reads those of the other, too. */
#define _POSIX_C_SOURCE 200809L
#include "keep.h"

#include <errno.h>
#include <fcntl.h>
#include <stdio.h>
#include <stdlib.h>
#include <string.h>
#include <sys/stat.h>
#include <unistd.h>

/* ---- out */

/* what is written: the texts of a capture, which are gathered */
typedef struct writing {
  const em_machine *machine;
  size_t count;                /* how many frames were sent */
  const uint64_t *nanoseconds; /* when, where the caller says it; */
  const uint64_t *lines;       /* and else by which lines, in a run that is kept */
  int file;
  size_t used;
  kept_text text;
  uint8_t octets[65536];
} writing;

/* Writes what was gathered; 0, or the number of the host's error. */
static int flush(writing *to) {
  for (size_t at = 0; at < to->used;) {
    errno = 0;
    ssize_t done = write(to->file, to->octets + at, to->used - at);
    if (done > 0) at += (size_t)done;
    else if (errno != EINTR) return errno != 0 ? errno : EIO;
  }
  to->used = 0;
  return 0;
}

/* Gathers the text. */
static int gather(writing *to) {
  /* (no header and no frame is longer than the room) */
  if (to->text.used == 0) return EOVERFLOW;
  int error = to->used + to->text.used > sizeof to->octets ? flush(to) : 0;
  if (error != 0) return error;
  memcpy(to->octets + to->used, to->text.octets, to->text.used);
  to->used += to->text.used;
  return 0;
}

static uint64_t time_of(const writing *to, size_t index) {
  enum { MICROSECOND = 1000 };
  if (to->nanoseconds != NULL) return to->nanoseconds[index];
  return (to->lines != NULL ? to->lines[index] : (uint64_t)index + 1) * MICROSECOND;
}

static int write_all(writing *to) {
  capture_head(&to->text);
  int error = gather(to);
  for (size_t i = 0; i < to->count && error == 0; i++) {
    error = capture_record(to->machine, i, time_of(to, i), &to->text) == EM_OK ? gather(to) : EIO;
  }
  return error == 0 ? flush(to) : error;
}

/* Writes it to a file that is opened so, and closes that. */
static int write_file(writing *to, const char *path, int how) {
  to->file = open(path, how | O_WRONLY | O_CLOEXEC, 0666);
  if (to->file < 0) return errno;
  int error = write_all(to);
  return close(to->file) != 0 && error == 0 ? errno : error;
}

/* Writes it to a file that takes the place of one at the path. */
static int replace(writing *to, const char *path) {
  static const char behind[] = ".new";
  const size_t length = strlen(path);
  char *made = malloc(length + sizeof behind);
  if (made == NULL) return ENOMEM;
  memcpy(made, path, length);
  memcpy(made + length, behind, sizeof behind);
  int error = write_file(to, made, O_CREAT | O_EXCL);
  if (error == 0 && rename(made, path) != 0) error = errno;
  /* (a file that was there before is another's) */
  if (error != 0 && to->file >= 0) (void)unlink(made);
  free(made);
  return error;
}

static bool is_no_file(const char *path) {
  struct stat there;
  return stat(path, &there) == 0 && !S_ISREG(there.st_mode);
}

static em_code of_error(int error) {
  if (error == ENOMEM) return EM_MEMORY;
  errno = error;
  return EM_FILE;
}

em_code em_pcap_write(const em_machine *machine, const char *path, const uint64_t *nanoseconds) {
  size_t count = 0;
  em_code why = em_wire_count(machine, &count);
  if (why != EM_OK) return why;
  const kept *run = machine->state & KEPT && kept_of(machine)->file >= 0 ? kept_of(machine) : NULL;
  if (nanoseconds == NULL && run != NULL && run->known < count) return EM_MEMORY;
  writing *to = malloc(sizeof *to);
  if (to == NULL) return EM_MEMORY;
  to->machine = machine;
  to->count = count;
  to->nanoseconds = nanoseconds;
  to->lines = run != NULL ? run->sent : NULL;
  to->used = 0;
  const int error = is_no_file(path) ? write_file(to, path, 0) : replace(to, path);
  free(to);
  return error != 0 ? of_error(error) : EM_OK;
}

/* ---- in */

/* What a file holds, as it is read. */
typedef struct reading {
  uint8_t *octets;
  size_t used, room;
} reading;

/* Makes room for more of it. */
static bool grows(reading *from) {
  const size_t room = from->room != 0 ? 2 * from->room : 65536;
  uint8_t *octets = room > from->room ? realloc(from->octets, room) : NULL;
  if (octets == NULL) return false;
  from->octets = octets;
  from->room = room;
  return true;
}

/* Reads it up to its end; 0, or the number of the host's error. */
static int read_file(int file, reading *from) {
  for (ssize_t done = 1; done != 0;) {
    if (from->used == from->room && !grows(from)) return ENOMEM;
    done = read(file, from->octets + from->used, from->room - from->used);
    if (done > 0) from->used += (size_t)done;
    else if (done < 0 && errno != EINTR) return errno;
  }
  return 0;
}

em_code em_pcap_open(em_pcap *pcap, const char *path) {
  if (pcap->made) return EM_OPEN_ALREADY;
  const int file = open(path, O_RDONLY | O_CLOEXEC);
  if (file < 0) return of_error(errno);
  reading from = {NULL, 0, 0};
  const int error = read_file(file, &from);
  (void)close(file);
  em_code why = error != 0 ? of_error(error) : em_pcap_of(pcap, from.octets, from.used);
  free(from.octets);
  return why;
}
