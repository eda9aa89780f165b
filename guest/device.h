/* The adapter as a guest's machine sees it: accesses of its registers, frames that come and go, and engines that work
   by themselves. Each event goes into the run. */
#ifndef GUEST_DEVICE_H
#define GUEST_DEVICE_H

#include <stdbool.h>
#include <stddef.h>
#include <stdint.h>

#include "bunjelav.h"
#include "ram.h"
#include "run.h"

/* The model's guest memory, from address 0 on: as far as addresses of a machine go. Which of it the guest has, QEMU says. */
#define MODEL_MEMORY (UINT64_C(1) << 40)

enum {
  REGISTERS_END = 0x20000,
  MOST_FRAME = 20000,
  MOST_STEPS = 64 /* how many descriptors are handled before a guest or the wire is looked at again */
};

/* What an engine works on. */
struct ring {
  uint32_t side;      /* of enum em_rings */
  bool is_stopped;    /* a step was refused: it stands still until the guest writes to its registers */
  uint32_t registers; /* where its registers begin, 64 octets of them, and its control register */
  uint32_t control;
};

struct tally {
  uint64_t accesses, refused, odd; /* of registers; odd are those of a size or at an address that is none of theirs */
  uint64_t arrived, dropped, sent, steps_refused, outside;
};

typedef void frame_sent(void *whose, const uint8_t *frame, size_t length);
typedef void register_accessed(void *whose, uint32_t offset);

struct device {
  em_machine machine;
  struct ram ram;
  struct run *run;
  struct ring receive, transmit;
  bool is_master;   /* the guest lets it use memory */
  size_t waiting;   /* frames that lie in the FIFO */
  size_t sent;      /* frames of the model's wire that were handed on */
  size_t kept;      /* octets of them since the library let go of some */
  uint64_t counter; /* the guest's program counter at this access; 0 where it is not known */
  frame_sent *on_sent;
  register_accessed *on_access; /* or NULL */
  void *whose;                  /* of both */
  struct tally tally;
  uint32_t refused_reads[REGISTERS_END / 4], refused_writes[REGISTERS_END / 4];
};

/* Makes the adapter with this address and its link up, and begins the run. False where there is no memory for it. */
bool device_make(struct device *device, uint32_t profile, const uint8_t mac[6], struct run *run, frame_sent *on_sent,
                 void *whose);

void device_free(struct device *device);

/* The guest reads or writes a register: an offset of four octets below REGISTERS_END. */
uint32_t device_read(struct device *device, uint32_t offset);
void device_write(struct device *device, uint32_t offset, uint32_t value);

/* The bus was reset. */
void device_reset(struct device *device);

/* The guest allows the use of memory, or forbids it. */
void device_set_master(struct device *device, bool is_master);

/* Whether the guest has its receiver enabled. */
bool device_receives(const struct device *device);

/* Whether the adapter loops: what it sends comes back, and nothing comes from the wire. */
bool device_loops(const struct device *device);

/* Whether a frame is better left on the wire until the guest has taken some of those that wait. */
bool device_is_full(const struct device *device);

/* A frame of 1 to MOST_FRAME octets arrives; a short one is padded to 60, as it is on a wire. */
void device_arrive(struct device *device, const uint8_t *frame, size_t length);

/* Lets the engines handle at most MOST_STEPS descriptors; true where they have more to do. */
bool device_turn(struct device *device);

/* The interrupt line. */
bool device_interrupts(const struct device *device);

#endif
