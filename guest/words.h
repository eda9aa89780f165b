/* The words that QEMU is started with: the user's own, and behind them those that give it the adapter. */
#ifndef GUEST_WORDS_H
#define GUEST_WORDS_H

#include <stdbool.h>
#include <stddef.h>

#include "options.h"

/* The descriptors of QEMU's that these words name. */
enum { DEVICE_FILE = 100, WIRE_FILE = 101, QTEST_FILE = 102, COUNTER_FILE = 103 };

struct words {
  char **list; /* it ends with NULL */
  size_t count;
};

/* Makes the words; false, and told, where that is not possible. `plugin` is the file of the plugin for --pc. */
bool words_make(struct words *words, const struct options *options, const char *plugin);

void words_free(struct words *words);

/* Prints them in one line, for a shell. */
void words_print(const struct words *words);

/* Whether the user's words ask for KVM: then interrupts go by an irqfd, and else by -qtest. */
bool words_use_kvm(char **words);

/* The input of the interrupt controller to which the adapter's pin leads in this machine, as its firmware sets it up.
 */
struct input words_input(char **words, unsigned slot);

#endif
