/* The guest is held, while somebody asks em_debug of the run so far. */
#ifndef GUEST_HOLD_H
#define GUEST_HOLD_H

#include <stdbool.h>
#include <sys/types.h>
#include <termios.h>

#include "debugger.h"

struct hold {
  struct debugger debugger;
  const char *run;     /* the run's path */
  const char *symbols; /* which name program counters, or NULL */
  bool has_terminal;
  struct termios terminal; /* as it was before QEMU changed it */
};

/* Keeps how the terminal is, if there is one. */
void hold_make(struct hold *hold);

/* Holds QEMU, if it was started here (else `qemu` is 0), and lets em_debug have the terminal until it ends. `signals`
   is a descriptor of signals. 0, or the number of a signal that came and ends em_guest. */
int hold_guest(struct hold *hold, pid_t qemu, int signals);

#endif
