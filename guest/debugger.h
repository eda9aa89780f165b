/* The words by which em_debug plays a run of this adapter. */
#ifndef GUEST_DEBUGGER_H
#define GUEST_DEBUGGER_H

#include <stddef.h>
#include <stdint.h>

enum { MOST_DEBUGGER_WORDS = 8 };

struct debugger {
  const char *words[MOST_DEBUGGER_WORDS]; /* the program and its options */
  const char *played[3];                  /* the program and a run, whose first line has the options */
  char memory[24], mac[16];
};

/* Makes the words for this program, and this profile and address of the adapter. They stay where they are. */
void debugger_make(struct debugger *debugger, const char *program, uint32_t profile, const uint8_t mac[6]);

/* The words that play this run, or where that is NULL those that play none. */
char **debugger_words(struct debugger *debugger, const char *run);

#endif
