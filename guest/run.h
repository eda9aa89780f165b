/* The run of a guest as a script of em_bench's language, line by line as its events are performed. (The library keeps
   runs too, by em_record_to. docs/team/DECISIONS.md says what its lines lack here.) */
#ifndef GUEST_RUN_H
#define GUEST_RUN_H

#include <stdbool.h>
#include <stddef.h>
#include <stdint.h>

#include "bunjelav.h"

/* Where an event comes from: the guest's program counter, 0 where it is not known; or code that ran before that one. */
struct source {
  uint64_t counter;
  bool is_before;
};

struct run {
  int file; /* -1 where no run is kept, or no longer */
  size_t have;
  uint64_t written; /* octets of the file; they end with a whole line */
  uint64_t lines;
  char text[131072]; /* whole lines that are to be written, and one that is not whole yet */
};

/* Begins a run in a new file; in one that is there only where `over` allows it. False where it can't, and told. */
bool run_open(struct run *run, const char *path, bool over);

/* A run that is kept nowhere. */
void run_open_none(struct run *run);

/* Puts the lines so far into the file: from then on the system has them, whatever ends the process. Where it refuses
   them that is told, and the run ends behind the last whole line that it took. Between two lines alone. */
void run_flush(struct run *run);

void run_close(struct run *run);

/* The first line: what the adapter is made of, as the library's kept runs have it. `memory` is whole gibibytes. */
void run_head(struct run *run, uint32_t profile, uint64_t memory, uint64_t budget, const uint8_t mac[6]);

/* One line each: an event with the answer that it had, which a debugger then expects. `refusal` is the library's number
   of it. A write also has a remark, or NULL. */
void run_read(struct run *run, uint32_t offset, uint32_t refusal, uint32_t value, struct source source);
void run_write(struct run *run, uint32_t offset, uint32_t value, uint32_t refusal, struct source source,
               const char *remark);
void run_poke(struct run *run, uint64_t address, const uint8_t *octets, size_t length, struct source source);
void run_arrive(struct run *run, const uint8_t *frame, size_t length, uint32_t refusal, const em_note *note);
void run_step(struct run *run, const char *engine, uint32_t refusal, const em_note *note);
void run_link(struct run *run, bool is_up);

/* A line that is a comment. */
void run_remark(struct run *run, const char *format, ...) __attribute__((format(printf, 2, 3)));

#endif
