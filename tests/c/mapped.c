/* A run that is kept by a mapping of its file: the file holds what one has that is kept by write(2), however long its
   lines are, and ends with them; each call of the system by which it grows is refused in turn, and the machine goes on.
   The linker hands these calls to this file (--wrap).

   `mapped FOLDER` leaves its files there. `mapped FOLDER full` is for a folder on a small disk of its own: it is filled
   by a run, which ends as an error that is told, and not by SIGBUS. The last line is `N passed, M failed`. */
#define _DEFAULT_SOURCE
#include "harness.h"

#include <errno.h>
#include <fcntl.h>
#include <signal.h>
#include <stdlib.h>
#include <sys/mman.h>
#include <sys/resource.h>
#include <sys/types.h>
#include <sys/vfs.h>
#include <unistd.h>

enum { PATH = 4000, TEXT = 1 << 25, NAME = 5000, FRAME = 20000, LONGEST = 49152 };

static const char *folder;

/* ---- calls of the system that are refused */

typedef enum { CUT, GROW, MAP, READY, SYSTEM_CALLS } system_call;

static system_call refused = SYSTEM_CALLS;
static long before = -1; /* so many of them go well, and then */
static bool for_good;    /* all are refused, or one */
static int error;
static size_t most = SIZE_MAX; /* octets by which the file grows at once */
static size_t left = SIZE_MAX; /* and by which it grows in all */
static unsigned refusals;

static bool refuses_system(system_call which) {
  if (which != refused || before < 0) return false;
  if (before > 0) return before--, false;
  if (!for_good) before = -1;
  refusals++;
  errno = error;
  return true;
}

int __real_ftruncate(int, off_t);
int __wrap_ftruncate(int, off_t);
int __wrap_ftruncate(int file, off_t length) { return refuses_system(CUT) ? -1 : __real_ftruncate(file, length); }

ssize_t __real_pwrite(int, const void *, size_t, off_t);
ssize_t __wrap_pwrite(int, const void *, size_t, off_t);
ssize_t __wrap_pwrite(int file, const void *octets, size_t length, off_t at) {
  if (refuses_system(GROW)) return error != 0 ? -1 : 0;
  if (left == 0) return errno = ENOSPC, -1;
  if (length > most) length = most;
  if (length > left) length = left;
  if (left != SIZE_MAX) left -= length;
  return __real_pwrite(file, octets, length, at);
}

void *__real_mmap(void *, size_t, int, int, int, off_t);
void *__wrap_mmap(void *, size_t, int, int, int, off_t);
void *__wrap_mmap(void *at, size_t length, int protection, int flags, int file, off_t offset) {
  return refuses_system(MAP) ? MAP_FAILED : __real_mmap(at, length, protection, flags, file, offset);
}

static long number; /* of the file system, as it is told; 0: as it is */

int __real_fstatfs(int, struct statfs *);
int __wrap_fstatfs(int, struct statfs *);
int __wrap_fstatfs(int file, struct statfs *told) {
  int done = __real_fstatfs(file, told);
  if (number != 0) told->f_type = number;
  return done;
}

int __real_madvise(void *, size_t, int);
int __wrap_madvise(void *, size_t, int);
int __wrap_madvise(void *at, size_t length, int advice) {
  return refuses_system(READY) ? -1 : __real_madvise(at, length, advice);
}

static void refuse(system_call which, long behind, bool all, int how) {
  refused = which, before = behind, for_good = all, error = how, refusals = 0;
}

static void refuse_none(void) {
  refused = SYSTEM_CALLS, before = -1, most = left = SIZE_MAX;
}

/* ---- files */

static const char *named(const char *name) {
  static char path[PATH];
  snprintf(path, sizeof path, "%s/%s", folder, name);
  return path;
}

static size_t in_file(const char *name, char *text) {
  int file = open(named(name), O_RDONLY);
  size_t length = 0;
  for (ssize_t done = 1; file >= 0 && done > 0; length += (size_t)done) done = read(file, text + length, TEXT - length);
  if (file >= 0) close(file);
  return length;
}

static char by_write[TEXT], by_map[TEXT];

/* Of the two files how many octets are the same; behind these the mapped one may have as many blanks. */
static size_t same_octets(size_t *blanks) {
  size_t ones = in_file("write.em", by_write), others = in_file("map.em", by_map), same = 0;
  while (same < ones && same < others && by_write[same] == by_map[same]) same++;
  for (*blanks = 0; same + *blanks < others && by_map[same + *blanks] == ' ';) ++*blanks;
  return same + *blanks == others ? same : 0;
}

/* ---- calls */

static void begin(em_machine machines[2]) {
  machines[0] = made(), machines[1] = made();
  OK(em_record_to(&machines[0], named("write.em")));
  OK(em_record_mapped(&machines[1], named("map.em")));
}

static void end(em_machine machines[2]) { em_free(&machines[0]), em_free(&machines[1]); }

/* The i-th call: an access, and at each seventh a frame, all of whose lines have a file's name of some length. */
static uint32_t make_call(em_machine *machine, unsigned i, size_t name_length) {
  static char name[NAME];
  static uint8_t frame[FRAME];
  em_note note;
  memset(name, 'x', name_length), name[name_length] = 0;
  fill(frame, sizeof frame);
  MUST(em_source(machine, name, i) == EM_OK);
  return i % 7 == 6 ? em_arrive(machine, frame, 14 + i * 37 % (FRAME - 13), &note) : em_write(machine, RDT, i);
}

static void call_both(em_machine machines[2], unsigned from, unsigned to) {
  for (unsigned i = from; i < to; i++) {
    MUST(make_call(&machines[0], i, i * 131 % 4097) == EM_OK);
    MUST(make_call(&machines[1], i, i * 131 % 4097) == EM_OK);
  }
}

/* ---- what is tried */

/* Both files are the same, and the mapped one has blanks only while it is mapped. */
static void holds_the_same(unsigned calls, size_t at_once) {
  em_machine machines[2];
  size_t blanks, same, done;
  int fault;
  most = at_once;
  begin(machines);
  for (unsigned i = 0; i < calls; i += 100) {
    call_both(machines, i, i + 100);
    if (i % 1000 == 0) MUST(same_octets(&blanks) == in_file("write.em", by_write) && blanks <= 131072);
  }
  /* a step back of several lines, with the longest name */
  for (int i = 0; i < 2; i++) OK(em_back(&machines[i], SIZE_MAX, &done));
  OK(em_recording_status(&machines[1], &fault));
  same = same_octets(&blanks);
  CHECK(same == in_file("write.em", by_write) && blanks > 0);
  end(machines);
  CHECK(same_octets(&blanks) == same && blanks == 0);
  refuse_none();
}

/* The longest line, of a frame of 20,000 octets with a name of 4,096, at each place of a window's end. */
static void takes_the_longest(void) {
  em_machine machines[2];
  size_t blanks, same;
  begin(machines);
  for (unsigned i = 0; i < 64; i++) {
    static uint8_t frame[FRAME];
    char name[NAME];
    em_note note;
    fill(frame, sizeof frame);
    memset(name, 'y', sizeof name), name[i % 2 ? 4096 : 7 * i] = 0;
    for (int k = 0; k < 2; k++) {
      OK(em_source(&machines[k], name, i));
      OK(em_arrive(&machines[k], frame, FRAME, &note));
    }
  }
  end(machines);
  same = same_octets(&blanks);
  CHECK(same > 64 * 40000 && same == in_file("write.em", by_write) && blanks == 0);
}

/* A call of the system is refused from its n-th time on, or then alone: up to there each line is whole, and the machine
   goes on. */
static void goes_on(system_call which, long behind, bool all, int how, int told) {
  em_machine machines[2];
  size_t blanks, same;
  int fault = 0;
  uint32_t why = EM_OK;
  begin(machines);
  refuse(which, behind, all, how);
  call_both(machines, 0, 700);
  CHECK(refusals > 0);
  why = em_recording_status(&machines[1], &fault);
  same = same_octets(&blanks);
  if (told == 0) {
    CHECK(why == EM_OK && same == in_file("write.em", by_write));
  } else {
    CHECK(why == EM_FILE && fault == told);
    REFUSED(em_recording_status(&machines[1], &fault), EM_UNRECORDED);
    CHECK(same > 0 && same < in_file("write.em", by_write) && blanks == 0 && by_map[same - 1] == '\n');
  }
  refuse_none();
  call_both(machines, 700, 710); /* and on */
  CHECK(read_of(&machines[0], RDT) == read_of(&machines[1], RDT));
  end(machines);
}

/* Where it can't be cut, blanks stay, which say nothing. */
static void stays_uncut(void) {
  em_machine machines[2];
  size_t blanks;
  begin(machines);
  call_both(machines, 0, 20);
  refuse(CUT, 0, false, EIO);
  end(machines);
  refuse_none();
  CHECK(same_octets(&blanks) == in_file("write.em", by_write) && blanks > 0);
}

/* A disk with so much room, of which as much is used as lines fit into. */
static void uses_the_room(size_t room) {
  em_machine machines[2];
  size_t blanks, same;
  int fault = 0;
  left = room;
  begin(machines);
  call_both(machines, 0, 200);
  REFUSED(em_recording_status(&machines[1], &fault), EM_FILE);
  same = same_octets(&blanks);
  CHECK(fault == ENOSPC && blanks == 0 && by_map[same - 1] == '\n');
  CHECK(same <= room && same + LONGEST > room);
  end(machines);
  refuse_none();
}

/* It is not begun, and no file stays open for it. */
static void is_not_begun(system_call which, int how, int told) {
  em_machine m = made();
  int fault, file = open("/dev/null", O_RDONLY);
  refuse(which, 0, true, how);
  errno = 0;
  REFUSED(em_record_mapped(&m, named("none.em")), EM_FILE);
  CHECK(errno == told && m.state == (uint32_t)BUDGET << 5);
  refuse_none();
  REFUSED(em_recording_status(&m, &fault), EM_UNRECORDED);
  OK(em_record_mapped(&m, named("none.em")));
  em_free(&m);
  CHECK(open("/dev/null", O_RDONLY) == file + 1);
  close(file), close(file + 1);
}

/* A file in which another run is kept is left alone. */
static void shares_no_file(void) {
  em_machine machines[2], other = made();
  size_t blanks;
  begin(machines);
  call_both(machines, 0, 10);
  REFUSED(em_record_mapped(&other, named("map.em")), EM_FILE);
  CHECK(errno == EWOULDBLOCK);
  call_both(machines, 10, 20);
  CHECK(same_octets(&blanks) == in_file("write.em", by_write));
  end(machines);
  OK(em_record_mapped(&other, named("map.em")));
  em_free(&other);
}

/* A file of a file system that copies is left alone, too. */
static void takes_no_copying(void) {
  static const long numbers[] = {0x9123683E, 0x2FC12FC1, 0xCA451A4E}; /* as statfs(2) and their sources have them */
  em_machine m = made();
  OK(em_record_mapped(&m, named("map.em")));
  em_free(&m);
  m = made();
  for (int i = 0; i < 3; i++) {
    number = numbers[i];
    REFUSED(em_record_mapped(&m, named("map.em")), EM_FILE);
    CHECK(errno == EOPNOTSUPP && in_file("map.em", by_map) > 0);
  }
  number = 0xEF53; /* ext4 */
  OK(em_record_mapped(&m, named("map.em")));
  number = 0;
  em_free(&m);
}

/* No file of a run may be so long. */
static void meets_a_limit(void) {
  const struct rlimit limit = {100000, RLIM_INFINITY};
  struct rlimit was;
  em_machine m = made();
  size_t length;
  int fault = 0;
  getrlimit(RLIMIT_FSIZE, &was);
  signal(SIGXFSZ, SIG_IGN);
  setrlimit(RLIMIT_FSIZE, &limit);
  OK(em_record_mapped(&m, named("map.em")));
  for (unsigned i = 0; i < 200; i++) MUST(make_call(&m, i, 100) == EM_OK);
  REFUSED(em_recording_status(&m, &fault), EM_FILE);
  setrlimit(RLIMIT_FSIZE, &was);
  signal(SIGXFSZ, SIG_DFL);
  length = in_file("map.em", by_map);
  CHECK(fault == EFBIG && length > 100000 - LONGEST && length <= 100000 && by_map[length - 1] == '\n');
  em_free(&m);
}


/* The disk is filled by a run: it has as much as there was room for, and what reads it can't tell it from a whole
   one. */
static void fills_the_disk(void) {
  em_machine m = made();
  size_t length, lines = 0, calls = 0;
  int fault = 0;
  OK(em_record_mapped(&m, named("map.em")));
  while (em_recording_status(&m, &fault) == EM_OK && calls < 1000000) {
    MUST(make_call(&m, (unsigned)calls++, 20) == EM_OK);
  }
  CHECK(fault == ENOSPC);
  MUST(make_call(&m, 5, 20) == EM_OK);
  em_free(&m);
  length = in_file("map.em", by_map);
  for (size_t i = 0; i < length; i++) lines += by_map[i] == '\n';
  CHECK(length > 0 && by_map[length - 1] == '\n');
  CHECK(lines == calls); /* the head, and each call but the one that found no room */
}

int main(int words, char **word) {
  if (words < 2) return 1;
  folder = word[1];
  if (words > 2) {
    fills_the_disk();
    return tell_counts();
  }
  holds_the_same(3000, SIZE_MAX);
  holds_the_same(300, 1000);
  takes_the_longest();
  for (long n = 0; n < 20; n += 5) {
    goes_on(GROW, n, true, ENOSPC, ENOSPC), goes_on(GROW, n, true, 0, EIO);
    goes_on(GROW, n, false, EINTR, 0);
  }
  goes_on(GROW, 5, false, EDQUOT, 0); /* (what it grew by before that has room for the line) */
  for (long n = 0; n < 4; n++) {
    goes_on(MAP, n, false, ENOMEM, ENOMEM), goes_on(READY, n, false, EFAULT, EIO), goes_on(READY, n, true, EINVAL, 0);
  }
  stays_uncut();
  for (size_t room = 70000; room < 400000; room += 33333) uses_the_room(room);
  is_not_begun(CUT, EROFS, EROFS), is_not_begun(MAP, ENODEV, ENODEV), is_not_begun(GROW, ENOSPC, ENOSPC);
  is_not_begun(READY, EFAULT, EIO);
  shares_no_file();
  takes_no_copying();
  meets_a_limit();
  CHECK(blocks == 0);
  return tell_counts();
}
