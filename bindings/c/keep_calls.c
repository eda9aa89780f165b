/* The calls of a run that is kept: each is performed by the crate em_c, which tells its lines, and they go to the file. Calls
   that are several events are made of those that are one. */
#include "keep.h"

#include <string.h>

static const uint8_t *name_of(const kept *run) { return (const uint8_t *)(run->name != NULL ? run->name : ""); }

#define OF(run) name_of(run), strlen((const char *)name_of(run)), (run)->line, (run)->counter

/* Puts the line of a call that is one event, and gave a number, into the file. */
static em_code put(kept *run, em_code code) {
  put_line(run);
  return code;
}

/* The newest event is told, where the call was not refused. */
static em_code told(const em_machine *machine, em_code code, em_note *event) {
  return code == EM_OK ? em_event(machine, 0, event) : code;
}

/* ---- one event */

em_code keep_read(em_machine *machine, uint32_t offset, uint32_t *value) {
  kept *run = kept_of(machine);
  return put(run, kept_read(machine, offset, OF(run), &run->text, value));
}

em_code keep_write(em_machine *machine, uint32_t offset, uint32_t value) {
  kept *run = kept_of(machine);
  return put(run, kept_write(machine, offset, value, OF(run), &run->text));
}

em_code keep_poke(em_machine *machine, uint64_t address, const uint8_t *octets, size_t length) {
  kept *run = kept_of(machine);
  return put(run, kept_poke(machine, address, octets, length, OF(run), &run->text));
}

em_code keep_arrive(em_machine *machine, const uint8_t *frame, size_t length, em_note *event) {
  kept *run = kept_of(machine);
  return told(machine, put(run, kept_arrive(machine, frame, length, OF(run), &run->text)), event);
}

em_code keep_set_link(em_machine *machine, bool up) {
  kept *run = kept_of(machine);
  return put(run, kept_set_link(machine, up, OF(run), &run->text));
}

em_code keep_rx_step(em_machine *machine, em_note *event) {
  kept *run = kept_of(machine);
  return told(machine, put(run, kept_rx_step(machine, OF(run), &run->text)), event);
}

em_code keep_tx_step(em_machine *machine, em_note *event) {
  kept *run = kept_of(machine);
  em_code code = put(run, kept_tx_step(machine, OF(run), &run->text));
  keep_sent(machine, run);
  return told(machine, code, event);
}

/* ---- several */

em_code keep_back(em_machine *machine, size_t n, size_t *done) {
  kept *run = kept_of(machine);
  if (n == 0) return proved_back(machine, n, done);
  em_code code = kept_back(machine, n, OF(run), &run->text, done);
  put_lines(run);
  keep_sent(machine, run);
  return code;
}

/* As em_sync_in_range does it: one memory write from the first octet that differs to the last, or none. */
em_code keep_sync_in_range(em_machine *machine, uint64_t address, const uint8_t *octets, size_t length, size_t *writes) {
  uint8_t old[MOST];
  size_t first = 0, last = length;
  if (length > sizeof old) return proved_sync_in_range(machine, address, octets, length, writes); /* (it is refused) */
  em_code why = em_peek(machine, address, old, length);
  if (why != EM_OK) return why;
  while (first < length && old[first] == octets[first]) first++;
  while (last > first && old[last - 1] == octets[last - 1]) last--;
  if (first < last) why = keep_poke(machine, address + first, octets + first, last - first);
  if (why == EM_OK) *writes = first < last;
  return why;
}

/* As em_sync_in does it: so in each page. */
em_code keep_sync_in(em_machine *machine, const uint8_t *ram, size_t size, size_t *writes) {
  enum { PAGE = 4096 };
  uint64_t base = 0, all = 0;
  size_t one = 0;
  em_code why = em_memory_base(machine, &base);
  if (why == EM_OK) why = em_memory_size(machine, &all);
  if (why != EM_OK || size != all) return proved_sync_in(machine, ram, size, writes); /* (it is refused) */
  *writes = 0;
  for (size_t at = 0; at < size && why == EM_OK; at += PAGE) {
    why = keep_sync_in_range(machine, base + at, ram + at, PAGE, &one);
    if (why == EM_OK) *writes += one;
  }
  return why;
}

/* ---- where calls come from */

em_code keep_tag(em_machine *machine, uint64_t tag) {
  kept_of(machine)->name = NULL;
  kept_of(machine)->counter = tag;
  return proved_tag(machine, tag);
}
