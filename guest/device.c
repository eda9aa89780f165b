#include "device.h"

#include <inttypes.h>
#include <stdio.h>
#include <string.h>

#include "say.h"

enum {
  CTRL = 0x0000,
  CTRL_RST = 0x04000000,
  RCTL = 0x0100,
  TCTL = 0x0400,
  RDBAL = 0x2800,
  TDBAL = 0x3800,
  TAIL = 0x18, /* of a ring's registers */
  LEAST_BUDGET = 65536,   /* of the journal, which is not asked here: the run is */
  MOST_BUDGET = 16777216, /* of who plays it: half a million events */
  LEAST_FRAME = 60,
  MOST_WAITING = 16,
  STATUS = 12, /* of a receive descriptor, in which EOP says that the frame ends there */
  STATUS_EOP = 2,
  MOST_GIVEN = 262144, /* octets that are looked at before one write of a tail; a step brings in the rest */
  MOST_KEPT = 1048576  /* octets of frames that were handed on, before the library lets go of them */
};

bool device_make(struct device *device, uint32_t profile, const uint8_t mac[6], struct run *run, frame_sent *on_sent,
                 void *whose) {
  *device = (struct device){
      .machine = EM_NO_MACHINE,
      .run = run,
      .receive = {.side = EM_RX_RING, .registers = RDBAL, .control = RCTL},
      .transmit = {.side = EM_TX_RING, .registers = TDBAL, .control = TCTL},
      .on_sent = on_sent,
      .whose = whose,
  };
  if (em_make_as(&device->machine, profile, 0, MODEL_MEMORY, LEAST_BUDGET, mac) != EM_OK) return false;
  if (!ram_attach(&device->ram, &device->machine)) return false;
  run_head(run, profile, MODEL_MEMORY, MOST_BUDGET, mac);
  if (em_set_link(&device->machine, true) == EM_OK) run_link(run, true);
  run_flush(run);
  return true;
}

void device_free(struct device *device) {
  memory_close(&device->ram.memory);
  em_free(&device->machine);
}

static struct source here(const struct device *device) {
  return (struct source){.counter = device->counter};
}

/* What the guest wrote before this access, by code that is not known. */
static struct source before(const struct device *device) {
  return (struct source){.counter = device->counter, .is_before = true};
}

/* ---- accesses */

static void count_access(struct device *device, uint32_t offset) {
  device->tally.accesses++;
  if (device->on_access) device->on_access(device->whose, offset);
}

uint32_t device_read(struct device *device, uint32_t offset) {
  uint32_t value = 0, refusal = em_read(&device->machine, offset, &value);
  count_access(device, offset);
  if (refusal != EM_OK) {
    device->tally.refused++;
    device->refused_reads[offset / 4]++;
  }
  run_read(device->run, offset, refusal, value, here(device));
  return value;
}

/* Whether a write may let a stopped engine go on. */
static bool wakes(const struct ring *ring, uint32_t offset) {
  return offset - ring->registers < 64 || offset == ring->control || offset == CTRL;
}

static void perform_write(struct device *device, uint32_t offset, uint32_t value, const char *remark) {
  uint32_t refusal = em_write(&device->machine, offset, value);
  if (refusal != EM_OK) {
    device->tally.refused++;
    device->refused_writes[offset / 4]++;
  } else if (offset == CTRL && value & CTRL_RST) {
    device->waiting = 0;
  }
  if (wakes(&device->receive, offset)) device->receive.is_stopped = false;
  if (wakes(&device->transmit, offset)) device->transmit.is_stopped = false;
  run_write(device->run, offset, value, refusal, here(device), remark);
}

/* Brings in what the guest has written and is about to give to an engine by this value of its tail. */
static void bring_given(struct device *device, const struct ring *ring, uint32_t tail) {
  em_ring_setup setup;
  size_t octets = 0, piece = 0;
  if (em_ring(&device->machine, ring->side, &setup) != EM_OK || setup.tail >= setup.count || tail >= setup.count)
    return;
  for (uint32_t i = setup.tail; i != tail && octets < MOST_GIVEN; i = (i + 1) % setup.count, octets += piece) {
    ram_begin(&device->ram, &setup, ring->side, i);
    if (!ram_bring(&device->ram, &device->machine, device->run, before(device), &piece)) return;
  }
}

void device_write(struct device *device, uint32_t offset, uint32_t value) {
  count_access(device, offset);
  if (offset == RDBAL + TAIL) bring_given(device, &device->receive, value);
  if (offset == TDBAL + TAIL) bring_given(device, &device->transmit, value);
  perform_write(device, offset, value, NULL);
}

void device_reset(struct device *device) {
  device->counter = 0;
  device->is_master = false;
  perform_write(device, CTRL, CTRL_RST, "the machine was reset");
}

void device_set_master(struct device *device, bool is_master) {
  device->is_master = is_master;
}

/* ---- the wire */

bool device_receives(const struct device *device) {
  em_ring_setup setup;
  return em_ring(&device->machine, EM_RX_RING, &setup) == EM_OK && setup.enabled;
}

bool device_is_full(const struct device *device) {
  return device->waiting >= MOST_WAITING;
}

void device_arrive(struct device *device, const uint8_t *frame, size_t length) {
  uint8_t padded[LEAST_FRAME] = {0};
  em_note note = {0};
  if (length == 0 || length > MOST_FRAME) return;
  if (length < LEAST_FRAME) {
    memcpy(padded, frame, length);
    frame = padded;
    length = LEAST_FRAME;
  }
  uint32_t refusal = em_arrive(&device->machine, frame, length, &note);
  run_arrive(device->run, frame, length, refusal, &note);
  device->tally.arrived++;
  if (refusal == EM_OK && note.kind == EM_STORED) device->waiting++;
  else device->tally.dropped++;
}

/* Lets go of the frames that were handed on: nobody steps back here, and the run has what sent them. */
static void let_go(struct device *device) {
  size_t count = 0;
  if (em_let_go(&device->machine, &count) == EM_OK) device->kept = 0;
}

bool device_loops(const struct device *device) {
  uint32_t loops = 0;
  return em_loops(&device->machine, &loops) == EM_OK && loops != 0;
}

/* Hands on what the last step sent: to the wire, or back to the adapter where it loops. */
static void hand_on(struct device *device) {
  uint8_t frame[EM_MOST_SENT];
  size_t count = 0, length = 0;
  if (em_wire_count(&device->machine, &count) != EM_OK) return;
  for (; device->sent < count; device->sent++) {
    if (em_wire_frame(&device->machine, device->sent, frame, sizeof frame, &length) != EM_OK) continue;
    device->tally.sent++;
    device->kept += length;
    if (device_loops(device)) device_arrive(device, frame, length);
    else if (device->on_sent) device->on_sent(device->whose, frame, length);
  }
  if (device->kept >= MOST_KEPT) let_go(device);
}

/* ---- the engines */

/* Whether an engine has a descriptor. */
static bool has_descriptor(const struct device *device, const struct ring *ring, em_ring_setup *setup) {
  return device->is_master && !ring->is_stopped && em_ring(&device->machine, ring->side, setup) == EM_OK &&
         setup->enabled && setup->head < setup->count && setup->tail < setup->count && setup->head != setup->tail;
}

/* An engine looked for what is no guest memory. */
static void stop(struct device *device, struct ring *ring) {
  const char *engine = ring->side == EM_RX_RING ? "receive" : "transmit";
  const struct ram *ram = &device->ram;
  ring->is_stopped = true;
  run_remark(device->run, "the %s engine stands still: %s at %" PRIX64 " is no guest memory", engine, ram->what,
             ram->where);
  if (device->tally.outside++ == 0)
    say("the %s engine stands still: %s at %" PRIX64 " is no guest memory", engine, ram->what, ram->where);
}

/* Lets an engine handle the descriptor at its head. False where the step was refused, or the guest's memory is not
   there: the engine stands still then. */
static bool step(struct device *device, struct ring *ring, const em_ring_setup *setup, em_note *note) {
  bool is_receive = ring->side == EM_RX_RING;
  ram_begin(&device->ram, setup, ring->side, setup->head);
  uint32_t refusal = is_receive ? em_rx_step(&device->machine, note) : em_tx_step(&device->machine, note);
  ram_end(&device->ram, &device->machine, device->run, before(device), refusal != EM_OK);
  if (device->ram.what) return stop(device, ring), false;
  run_step(device->run, is_receive ? "rx" : "tx", refusal, note);
  if (refusal == EM_OK) return true;
  ring->is_stopped = true;
  device->tally.steps_refused++;
  return false;
}

/* Handles a descriptor of the receive ring, where a frame waits for it. */
static bool receive(struct device *device) {
  em_ring_setup setup;
  em_note note = {0};
  uint8_t status = 0;
  if (device->waiting == 0 || !has_descriptor(device, &device->receive, &setup)) return false;
  if (!step(device, &device->receive, &setup, &note)) return false;
  if (note.kind == EM_RX_IDLE) {
    device->waiting = 0;
    return false;
  }
  const bool is_told = em_peek(&device->machine, device->ram.work.address + STATUS, &status, 1) == EM_OK;
  if (is_told && status & STATUS_EOP) device->waiting--;
  return true;
}

/* Handles a descriptor of the transmit ring. */
static bool transmit(struct device *device) {
  em_ring_setup setup;
  em_note note = {0};
  if (!has_descriptor(device, &device->transmit, &setup)) return false;
  if (!step(device, &device->transmit, &setup, &note) || note.kind == EM_TX_IDLE) return false;
  hand_on(device);
  return true;
}

bool device_turn(struct device *device) {
  for (unsigned steps = 0; steps < MOST_STEPS; steps++) {
    bool has_received = receive(device), has_sent = transmit(device);
    if (!has_received && !has_sent) return false;
  }
  return true;
}

bool device_interrupts(const struct device *device) {
  uint32_t level = 0;
  return em_line(&device->machine, &level) == EM_OK && level != 0;
}
