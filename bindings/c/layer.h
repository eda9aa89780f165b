/* What the parts of the C library beside the proved one share. No caller sees it.

   bindings/c/build gives the proved calls that stand below as PROVED other names, proved_ in the place of em_. A call that
   changes the machine goes through attach.c; from there through keep.c where the run is kept, else to the proved one. */
#ifndef BUNJELAV_LAYER_H
#define BUNJELAV_LAYER_H

#include "bunjelav.h"

/* What a call gives is not looked at: it was made to leave all as it was, and there is no more to do where it can't. */
static inline void ignore(em_code code) { (void)code; }

#define PROVED(call) extern __typeof__(em_##call) proved_##call
PROVED(make);
PROVED(make_with_eeprom);
PROVED(make_at);
PROVED(make_at_with_eeprom);
PROVED(make_as);
PROVED(make_as_with_eeprom);
PROVED(copy);
PROVED(load);
PROVED(free);
PROVED(read);
PROVED(write);
PROVED(read_sized);
PROVED(write_sized);
PROVED(poke);
PROVED(sync_in);
PROVED(sync_in_range);
PROVED(arrive);
PROVED(set_link);
PROVED(rx_step);
PROVED(tx_step);
PROVED(run_rx);
PROVED(run_tx);
PROVED(back);
PROVED(tag);
PROVED(wire_next);
PROVED(let_go);

/* What a handle's state has: whether memory is attached, or a function of it is being called (one of these two at most);
   whether the run is kept, in which case the handle has a `kept` in the place of what is attached; whether the machine may have
   performed events of which the journal says nothing, since some were taken back or it was loaded; whether sent frames are let
   go of without being asked for; and above these the journal's budget, which is 0 of a machine that was loaded. */
enum { ATTACHED = 1, CALLING = 2, KEPT = 4, BEGUN = 8, LETS_GO = 16, BUDGET = 5 };

/* how many octets a memory write has at most */
enum { MOST = 16384 };

/* ---- a kept run */

/* room for the lines of a call, as the crate em_c has it */
typedef struct kept_text {
  size_t used;
  uint8_t octets[49152];
} kept_text;

/* a file that is mapped: a window of it lies in memory, where the lines are put */
typedef struct kept_map {
  uint8_t *window; /* NULL where there is none */
  uint64_t begin;  /* where it begins in the file */
  uint64_t end;    /* up to where lines may be put */
  uint64_t used;   /* how many octets the lines have */
  uint64_t size;   /* and how many the file has */
} kept_map;

typedef struct kept {
  em_ram ram;       /* what is attached */
  int file;         /* where the lines go; below 0 where they go nowhere any more */
  int fault;        /* by which error, then */
  bool is_mapped;   /* the lines go there by a mapping, and else by write(2) */
  kept_map map;
  const char *name; /* where the next calls come from: a line of this file, */
  uint32_t line;
  uint64_t counter; /* or else this program counter, where it is not 0 */
  uint64_t lines;   /* how many lines there are */
  uint64_t *sent;   /* of each frame that was sent, the number of the line that sent it, */
  size_t known;     /* so many, */
  size_t room;      /* with room for so many */
  bool unknown;     /* of some that is not known, since memory was refused */
  kept_text text;
} kept;

static inline kept *kept_of(const em_machine *machine) { return (kept *)machine->ram.context; }

static inline em_ram *ram_of(em_machine *machine) {
  return machine->state & KEPT ? &kept_of(machine)->ram : &machine->ram;
}

/* Ends the keeping of a run, where one is kept: what is attached stays so. */
void keep_no_more(em_machine *machine);

/* The calls of these names, of a run that is kept. */
#define KEPT_CALL(call) extern __typeof__(em_##call) keep_##call
KEPT_CALL(read);
KEPT_CALL(write);
KEPT_CALL(poke);
KEPT_CALL(sync_in);
KEPT_CALL(sync_in_range);
KEPT_CALL(arrive);
KEPT_CALL(set_link);
KEPT_CALL(rx_step);
KEPT_CALL(tx_step);
KEPT_CALL(back);
KEPT_CALL(tag);

#define BY_KEEPING(machine, call, ...) \
  ((machine)->state & KEPT ? keep_##call((machine), __VA_ARGS__) : proved_##call((machine), __VA_ARGS__))

#endif
