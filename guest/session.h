/* One QEMU and the adapter that it has: each message of QEMU's is obeyed here, and answered. */
#ifndef GUEST_SESSION_H
#define GUEST_SESSION_H

#include <stdbool.h>

#include "bar.h"
#include "config.h"
#include "counter.h"
#include "device.h"
#include "interrupt.h"
#include "message.h"

struct session {
  struct channel channel;
  struct config config;
  struct bar bar;
  struct device device;
  struct interrupt interrupt;
  struct counter counter;
  bool has_more;                      /* the engines have more to do */
  bool is_asked;                      /* QEMU has made the device: it has asked something of it */
  void (*before_answer)(void *whose); /* called when a message is obeyed, before QEMU is answered */
  void *whose;
};

enum { MOST_MESSAGES = 64 }; /* that are obeyed before the wire is looked at again */

/* Takes the messages that are there, at most MOST_MESSAGES: WAITS where it took them all, WHOLE where more may be
   there. ENDED and BROKEN end the session; what is broken is told. */
enum received session_serve(struct session *session);

/* Lets the engines go on, and tells the interrupt line. */
void session_turn(struct session *session);

#endif
