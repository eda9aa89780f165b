/* A second em_debug, which is told each line of the run as it is kept, and warns of what drivers get wrong by it. */
#ifndef GUEST_WARNER_H
#define GUEST_WARNER_H

#include <stdbool.h>
#include <stddef.h>
#include <stdint.h>
#include <sys/types.h>

enum { WARNER_ROOM = 131072 }; /* octets: longer than any line of a run */

struct warner {
  pid_t process; /* 0 where there is none */
  int in, out;   /* what it reads and writes */
  int run;       /* the file of the run */
  uint64_t told; /* octets of the run that it was told */
  size_t have;   /* octets of `text` */
  char text[WARNER_ROOM];
};

/* Starts it by these words, for a run that is kept in this file. False, and told, where it can't be started. */
bool warner_start(struct warner *warner, char **words, const char *run);

/* Tells it what the run has had since; its warnings, a line each. (Those that have no room are left out.) Where it has
   ended that is told, and there are none from then on. */
void warner_ask(struct warner *warner, char *warnings, size_t room);

void warner_end(struct warner *warner);

#endif
