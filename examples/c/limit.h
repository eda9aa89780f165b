/* A limit of time for an example, which is included before all else: where a mistake has it wait for what never comes,
   it ends with a word. */
#ifndef LIMIT_H
#define LIMIT_H
#define _POSIX_C_SOURCE 200809L
#include <signal.h>
#include <string.h>
#include <unistd.h>

enum { LIMIT = 10, LIMIT_STATUS = 3 }; /* seconds, and the status behind them */

static const char *limit_word;

static void end_by_limit(int number) {
  (void)number;
  if (write(STDERR_FILENO, limit_word, strlen(limit_word)) < 0) _exit(LIMIT_STATUS + 1);
  _exit(LIMIT_STATUS);
}

/* From now on there are so many seconds; none is no limit. */
static void set_limit(unsigned seconds, const char *word) {
  limit_word = word;
  (void)signal(SIGALRM, end_by_limit);
  (void)alarm(seconds);
}

#endif
