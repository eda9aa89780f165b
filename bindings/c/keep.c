/* A run that is kept: the file that it goes to, and where its calls come from. keep_calls.c makes the calls.

   Each line is in the file before its call returns, by a write(2) of its own or by a store into a mapping (keep_map.c).
   So it is there whatever ends the process: the system has it then. */
#define _POSIX_C_SOURCE 200809L
#include "layer.h"
#include "keep.h"

#include <errno.h>
#include <fcntl.h>
#include <stdlib.h>
#include <string.h>
#include <unistd.h>

/* the register by which software reads the EEPROM */
enum { EERD = 0x14, START = 1, ADDRESS = 8, DATA = 16 };

/* ---- the file */

static int write_begins(kept *run, const char *path) {
  run->file = open(path, O_WRONLY | O_CREAT | O_TRUNC | O_APPEND | O_CLOEXEC, 0666);
  return run->file < 0 ? errno : 0;
}

/* How many lines the text has. */
static uint64_t lines_of(const kept_text *text) {
  uint64_t count = 0;
  const uint8_t *at = text->octets, *const end = at + text->used;
  for (; (at = memchr(at, '\n', (size_t)(end - at))) != NULL; at++) count++;
  return count;
}

static int write_lines(kept *run) {
  const uint8_t *at = run->text.octets;
  size_t left = run->text.used;
  for (ssize_t done; left > 0; at += done, left -= (size_t)done) {
    errno = 0;
    done = write(run->file, at, left);
    if (done < 0 && errno == EINTR) done = 0;
    else if (done <= 0) return errno != 0 ? errno : EIO;
  }
  run->lines += lines_of(&run->text);
  return 0;
}

static void close_file(kept *run) {
  if (run->file < 0) return;
  if (run->is_mapped) map_ends(run);
  (void)close(run->file);
  run->file = -1;
}

static void fail(kept *run, int error) {
  close_file(run);
  run->fault = error;
}

static void put(kept *run, int by_mapping(kept *)) {
  if (run->file < 0) return;
  /* (no line is longer than the room) */
  int error = run->text.used == 0 ? EOVERFLOW : run->is_mapped ? by_mapping(run) : write_lines(run);
  if (error != 0) fail(run, error);
}

void put_lines(kept *run) { put(run, map_lines); }

void put_line(kept *run) { put(run, map_line); }

/* ---- which line sent a frame */

/* Whether there is room for one more. */
static bool has_room(kept *run) {
  if (run->known < run->room) return true;
  const size_t room = run->room != 0 ? 2 * run->room : 64;
  uint64_t *sent = realloc(run->sent, room * sizeof *sent);
  if (sent == NULL) return false;
  run->sent = sent;
  run->room = room;
  return true;
}

void keep_sent(const em_machine *machine, kept *run) {
  size_t count = 0;
  ignore(em_wire_count(machine, &count));
  if (run->known >= count) run->known = count, run->unknown = false;
  while (run->known < count && !run->unknown) {
    if (has_room(run)) run->sent[run->known++] = run->lines;
    else run->unknown = true;
  }
}

/* ---- the head */

/* The word of the EEPROM at an address, by two events that are taken back; the tag at hand, too. */
static em_code read_word(em_machine *machine, uint32_t address, uint16_t *word, uint64_t *tag) {
  uint32_t value = 0;
  size_t gone;
  em_note note;
  em_code why = proved_write(machine, EERD, START | address << ADDRESS);
  if (why != EM_OK) return why;
  why = proved_read(machine, EERD, &value);
  if (why == EM_OK && (why = em_event(machine, 0, &note)) == EM_OK) {
    *word = (uint16_t)(value >> DATA);
    *tag = note.tag;
  }
  ignore(proved_back(machine, why == EM_OK ? 2 : 1, &gone));
  return why;
}

em_code what_it_is_of(em_machine *machine, uint32_t *profile, uint64_t *base, uint64_t *size, uint16_t words[EEPROM_WORDS],
                      uint64_t *tag) {
  em_code why = em_profile(machine, profile);
  if (why == EM_OK) why = em_memory_base(machine, base);
  if (why == EM_OK) why = em_memory_size(machine, size);
  for (uint32_t i = 0; i < EEPROM_WORDS && why == EM_OK; i++) why = read_word(machine, i, &words[i], tag);
  return why;
}

static em_code put_head(em_machine *machine, kept *run) {
  uint16_t words[EEPROM_WORDS];
  uint32_t profile = 0;
  uint64_t base = 0, size = 0;
  em_code why = what_it_is_of(machine, &profile, &base, &size, words, &run->counter);
  if (why != EM_OK) return why;
  kept_head(profile, base, size, machine->state >> BUDGET, words, &run->text);
  put_lines(run);
  return run->file < 0 ? EM_FILE : EM_OK;
}

/* ---- the calls */

static bool has_begun(const em_machine *machine) {
  size_t events = 0;
  return machine->state & BEGUN || em_can_go_back(machine, &events) != EM_OK || events > 0;
}

/* Begins to keep a run: the file, and in it what the machine was made of. */
static em_code begin(em_machine *machine, kept *run, const char *path) {
  int error = run->is_mapped ? map_begins(run, path) : write_begins(run, path);
  if (error != 0) {
    fail(run, error);
    return EM_FILE;
  }
  em_code why = put_head(machine, run);
  if (why != EM_OK) close_file(run);
  return why;
}

static em_code record(em_machine *machine, const char *path, bool is_mapped) {
  if (machine->state & CALLING) return EM_BUSY;
  if (!machine->made) return EM_NOT_MADE;
  if (machine->state & KEPT) return EM_RECORDED;
  if (has_begun(machine)) return EM_BEGUN;
  kept *run = malloc(sizeof *run);
  if (run == NULL) return EM_MEMORY;
  run->ram = machine->ram;
  run->fault = 0;
  run->is_mapped = is_mapped;
  run->name = NULL;
  run->line = 0;
  run->lines = 0;
  run->sent = NULL;
  run->known = run->room = 0;
  run->unknown = false;
  em_code why = begin(machine, run, path);
  if (why != EM_OK) {
    const int error = run->fault;
    free(run);
    if (error != 0) errno = error;
    return why;
  }
  machine->ram = (em_ram){run, NULL, NULL, NULL, 0};
  machine->state |= KEPT;
  return EM_OK;
}

em_code em_record_to(em_machine *machine, const char *path) { return record(machine, path, false); }

em_code em_record_mapped(em_machine *machine, const char *path) { return record(machine, path, true); }

void keep_no_more(em_machine *machine) {
  if (!(machine->state & KEPT)) return;
  kept *run = kept_of(machine);
  close_file(run);
  machine->ram = run->ram;
  machine->state &= ~(uint32_t)KEPT;
  free(run->sent);
  free(run);
}

em_code em_recording_status(em_machine *machine, int *error) {
  if (machine->state & CALLING) return EM_BUSY;
  if (!machine->made) return EM_NOT_MADE;
  if (!(machine->state & KEPT)) return EM_UNRECORDED;
  if (kept_of(machine)->file >= 0) return EM_OK;
  *error = kept_of(machine)->fault;
  keep_no_more(machine);
  return EM_FILE;
}

em_code em_source(em_machine *machine, const char *file, uint32_t line) {
  if (machine->state & CALLING) return EM_BUSY;
  if (!machine->made) return EM_NOT_MADE;
  if (machine->state & KEPT) {
    kept_of(machine)->name = file;
    kept_of(machine)->line = line;
    kept_of(machine)->counter = 0;
  }
  return EM_OK;
}
