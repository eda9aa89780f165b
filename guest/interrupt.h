/* The adapter's interrupt line, as a level that QEMU is told. Under KVM the two descriptors that QEMU sent are an
   irqfd: a write raises the line, and KVM asks behind each end of an interrupt whether it is still raised. Under TCG
   nobody reads them, and the inputs of interrupt controllers are set by QEMU's -qtest. */
#ifndef GUEST_INTERRUPT_H
#define GUEST_INTERRUPT_H

#include <stdbool.h>
#include <stddef.h>
#include <stdint.h>

enum { MOST_INPUTS = 4, MOST_PATH = 100 };

/* An input of an interrupt controller: the object's path in QEMU, and the input's number. */
struct input {
  char path[MOST_PATH];
  uint32_t number;
};

struct interrupt {
  int raise, resample; /* KVM's; -1 where there are none */
  int qtest;           /* a socket; -1 where there is none */
  const char *path;    /* of the socket to connect to when it is first wanted, or NULL */
  struct input inputs[MOST_INPUTS];
  size_t count;
  bool is_raised;
  bool is_told; /* a failure of the socket was told */
};

void interrupt_make(struct interrupt *interrupt);
void interrupt_close(struct interrupt *interrupt);

/* Reads `PATH:NUMBER`. */
bool input_parse(const char *text, struct input *input);

/* Takes the two descriptors. */
void interrupt_set_files(struct interrupt *interrupt, int raise, int resample);

/* Makes the line's level this one. */
void interrupt_set(struct interrupt *interrupt, bool is_raised);

/* KVM asks: the descriptor `resample` can be read. */
void interrupt_resample(struct interrupt *interrupt);

/* QEMU's -qtest answers: its socket can be read. */
void interrupt_answer(struct interrupt *interrupt);

#endif
