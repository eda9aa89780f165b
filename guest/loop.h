/* em_guest at work: it serves one QEMU until that ends. */
#ifndef GUEST_LOOP_H
#define GUEST_LOOP_H

#include <sys/types.h>

#include "capture.h"
#include "hold.h"
#include "options.h"
#include "run.h"
#include "session.h"
#include "stop.h"
#include "warner.h"
#include "wire.h"

struct guest {
  struct session session;
  struct run run;
  struct wire wire;
  struct capture capture_in;
  FILE *capture_out;
  uint64_t began; /* when the guest first received, by the monotonic clock; 0 before */
  pid_t process;  /* of QEMU, where em_guest started it; else 0 */
  int signals;    /* a descriptor of signals */
  int listener;   /* where a second QEMU is turned away; -1 where there is none */
  struct stops stops;
  struct warner warner;
  struct hold hold;
  int ended; /* the number of a signal that came while the guest was held, and ends em_guest; or 0 */
};

/* Hands a frame that was sent on. */
void loop_sent(void *whose, const uint8_t *frame, size_t length);

/* A register was accessed. */
void loop_accessed(void *whose, uint32_t offset);

/* Puts the run into its file, and holds the guest where that is due: behind what happened, before QEMU hears of it. */
void loop_look(void *whose);

/* Serves until the session ends. What ended it: 0 where QEMU closed, -1 where it sent what is no message, or the number
   of a signal. */
int loop_serve(struct guest *guest);

/* The number of a signal that came and ends em_guest, or 0. */
int loop_signal(struct guest *guest);

#endif
