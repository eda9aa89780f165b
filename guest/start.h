/* The programs that em_guest starts: QEMU, em_debug, and the other end of the wire. */
#ifndef GUEST_START_H
#define GUEST_START_H

#include <stdbool.h>
#include <stddef.h>
#include <sys/types.h>

/* A descriptor that QEMU gets, and its number there. */
struct handed {
  int descriptor, number;
};

/* Starts the program that the first word names, with these descriptors; they stay the caller's too. It dies with its
   parent. One that is deaf gets no Ctrl-C: em_guest does, and ends it. -1, and told, where it can't be started. */
pid_t start(char **words, const struct handed *handed, size_t count, bool is_deaf);

/* Whether a program ends within so many milliseconds; its status is as wait has it. */
bool start_has_ended(pid_t process, int milliseconds, int *status);

/* Asks a program to end, and ends it where it does not. Its status as wait has it. */
int start_end(pid_t process);

#endif
