/* A run that is kept by a mapping: its file grows ahead of the lines, and they are stored into it. The system has a
   page that is mapped, whatever ends the process, as it has what was written.

   - The file grows by blanks, by a system call. A line of blanks says nothing to any reader, so what a process that
     dies leaves behind its last line does no harm. The call makes the pages, and takes their room on the disk: where
     there is none it is refused, and no store is the one that finds it out, by SIGBUS.
   - A line is stored first, and its newline then: one that a death cuts has none, and is the last one.
   - A window of the file is mapped, and not all of it: a run may be of any length. */
#define _DEFAULT_SOURCE
#include "keep.h"

#include <errno.h>
#include <fcntl.h>
#include <string.h>
#include <sys/file.h>
#include <sys/mman.h>
#include <sys/vfs.h>
#include <unistd.h>

/* Each system's pages divide PAGES. A window begins at a multiple of STEP, and has two of these, so that the longest
   line fits behind any place of the first. The file has at most AHEAD blanks. (With a STEP of one PAGES each line took
   some 7 ns more.) */
enum { PAGES = 65536, STEP = 4 * PAGES, WINDOW = 2 * STEP, AHEAD = 2 * PAGES, BLANKS = 16384 };

/* File systems that copy what is written anew, by their numbers: btrfs, ZFS and bcachefs. A page that is stored to once
   more, behind its writing out, takes room again there, and on a full disk that store is SIGBUS. */
static const uint32_t COPYING[] = {0x9123683E, 0x2FC12FC1, 0xCA451A4E};

static bool is_copied(int file) {
  struct statfs told;
  if (fstatfs(file, &told) != 0) return false;
  for (size_t i = 0; i < sizeof COPYING / sizeof *COPYING; i++) {
    if ((uint32_t)told.f_type == COPYING[i]) return true;
  }
  return false;
}

/* Why a file is left as it is: to cut one that another run has mapped would end that one's process. */
static int refusal_of(int file) {
  if (is_copied(file)) return EOPNOTSUPP;
  return flock(file, LOCK_EX | LOCK_NB) != 0 && errno == EWOULDBLOCK ? EWOULDBLOCK : 0;
}

int map_begins(kept *run, const char *path) {
  memset(&run->map, 0, sizeof run->map);
  run->file = open(path, O_RDWR | O_CREAT | O_CLOEXEC, 0666);
  if (run->file < 0) return errno;
  int error = refusal_of(run->file);
  if (error == 0) return ftruncate(run->file, 0) != 0 ? errno : 0;
  (void)close(run->file);
  run->file = -1;
  return error;
}

static void drop_window(kept_map *map) {
  if (map->window != NULL) (void)munmap(map->window, WINDOW);
  map->window = NULL;
}

void map_ends(kept *run) {
  drop_window(&run->map);
  if (ftruncate(run->file, (off_t)run->map.used) != 0) return; /* (the blanks stay) */
}

/* Makes the file longer, by blanks; also where it is refused in the end, it may have become so. */
static int grow(kept *run, uint64_t size) {
  char blanks[BLANKS];
  memset(blanks, ' ', sizeof blanks);
  while (run->map.size < size) {
    uint64_t left = size - run->map.size;
    errno = 0;
    ssize_t done = pwrite(run->file, blanks, left < BLANKS ? (size_t)left : BLANKS, (off_t)run->map.size);
    if (done < 0 && errno == EINTR) continue;
    if (done <= 0) return errno != 0 ? errno : EIO;
    run->map.size += (uint64_t)done;
  }
  return 0;
}

/* Makes the pages ready to be stored to, all at once. It is refused where a store would be SIGBUS. (An older system
   can't, and makes each ready at the first store to it.) */
static int make_ready(uint8_t *pages, size_t length) {
#ifdef MADV_POPULATE_WRITE
  if (madvise(pages, length, MADV_POPULATE_WRITE) != 0 && errno == EFAULT) return EIO;
#else
  (void)pages, (void)length;
#endif
  return 0;
}

/* Maps the window that begins at a place of the file. */
static int move_window(kept *run, uint64_t begin) {
  drop_window(&run->map);
  void *window = mmap(NULL, WINDOW, PROT_READ | PROT_WRITE, MAP_SHARED, run->file, (off_t)begin);
  if (window == MAP_FAILED) return errno;
  run->map.window = window;
  run->map.begin = begin;
  return 0;
}

/* Makes room for the text, which fits into a window's second half. */
static int make_room(kept *run) {
  kept_map *map = &run->map;
  const uint64_t begin = map->used - map->used % STEP, end = begin + WINDOW;
  int error = grow(run, map->used + AHEAD < end ? map->used + AHEAD : end);
  if (map->used + run->text.used > map->size) return error; /* (in what there was room for, lines go on) */
  error = map->window == NULL || map->begin != begin ? move_window(run, begin) : 0;
  if (error != 0) return error;
  map->end = map->size < end ? map->size : end;
  const uint64_t ready = (map->used - begin) / PAGES * PAGES;
  return make_ready(map->window + ready, (size_t)(map->end - begin - ready));
}

/* Room for the text behind the lines that are there. */
static int has_room(kept *run) {
  return run->map.used + run->text.used <= run->map.end ? 0 : make_room(run);
}

/* Stores a line behind the others, its newline last. */
static void store(kept *run, const uint8_t *line, size_t length) {
  uint8_t *to = run->map.window + (run->map.used - run->map.begin);
  memcpy(to, line, length - 1);
  __atomic_store_n(to + length - 1, '\n', __ATOMIC_RELEASE);
  run->map.used += length, run->lines++;
}

int map_line(kept *run) {
  int error = has_room(run);
  if (error == 0) store(run, run->text.octets, run->text.used);
  return error;
}

int map_lines(kept *run) {
  const uint8_t *from = run->text.octets;
  size_t left = run->text.used;
  int error = has_room(run);
  if (error != 0) return error;
  while (left > 0) {
    const uint8_t *newline = memchr(from, '\n', left);
    const size_t length = newline != NULL ? (size_t)(newline - from) + 1 : left; /* (each text ends with one) */
    store(run, from, length);
    from += length, left -= length;
  }
  return 0;
}
