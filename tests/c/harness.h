/* What the C programs of the tests share: checks that are counted, memory that can be refused, and rings. The linker
   hands malloc, realloc and free to this file (--wrap). A program includes it once. */
#ifndef HARNESS_H
#define HARNESS_H

#include "bunjelav.h"

#include <stdio.h>
#include <string.h>

static unsigned passed, failed;

#define CHECK(condition) \
  ((condition) ? (void)passed++ : (void)(failed++, printf("%s:%d: %s\n", __FILE__, __LINE__, #condition)))
#define OK(call) CHECK((call) == EM_OK)
#define REFUSED(call, why) CHECK((call) == (why))
/* what is no check of its own, and is counted where it fails alone */
#define MUST(condition) ((condition) ? (void)0 : CHECK(condition))

/* The last line, and the status. */
static inline int tell_counts(void) {
  printf("%u passed, %u failed\n", passed, failed);
  return failed != 0;
}

/* ---- memory that is refused */

static long granted = -1;    /* so many more requests are granted; -1: all */
static bool once;            /* only one is refused then, else all */
static unsigned requests;    /* how many there were */
static long blocks;          /* how many blocks are out */

void *__real_malloc(size_t);
void *__real_realloc(void *, size_t);
void __real_free(void *);
void *__wrap_malloc(size_t);
void *__wrap_realloc(void *, size_t);
void __wrap_free(void *);

static inline bool refuses(void) {
  requests++;
  if (granted < 0) return false;
  if (granted > 0) {
    granted--;
    return false;
  }
  if (once) granted = -1;
  return true;
}

void *__wrap_malloc(size_t octets) {
  void *block = refuses() ? NULL : __real_malloc(octets);
  blocks += block != NULL;
  return block;
}

void *__wrap_realloc(void *block, size_t octets) {
  void *made = refuses() ? NULL : __real_realloc(block, octets);
  blocks += block == NULL && made != NULL;
  return made;
}

void __wrap_free(void *block) {
  blocks -= block != NULL;
  __real_free(block);
}

/* ---- registers and descriptors, as the manual has them */

enum {
  CTRL = 0x0000, STATUS = 0x0008, EERD = 0x0014, VET = 0x0038, ICR = 0x00C0, IMS = 0x00D0, RCTL = 0x0100, TCTL = 0x0400,
  RDBAL = 0x2800, RDLEN = 0x2808, RDH = 0x2810, RDT = 0x2818,
  TDBAL = 0x3800, TDLEN = 0x3808, TDH = 0x3810, TDT = 0x3818, RAL0 = 0x5400, RAH0 = 0x5404
};
enum { RST = 0x04000000, CTRL_VME = 0x40000000, LSC = 0x4, RXT0 = 0x80, TXQE = 0x2, TXDW = 0x1 };
enum { RCTL_EN = 0x2, RCTL_UPE = 0x8, RCTL_BAM = 0x8000, TCTL_EN = 0x2 };
enum { EOP = 0x1, RS = 0x8, DEXT = 0x20, DD = 0x1 };
enum { MEMORY = 65536, BUDGET = 1048576, RX_RING = 0x1000, TX_RING = 0x2000, BUFFER = 0x4000, DESCRIPTORS = 8 };

static const uint8_t MAC[6] = {0x52, 0x54, 0x00, 0x12, 0x34, 0x56};

static inline em_machine made(void) {
  em_machine machine = EM_NO_MACHINE;
  OK(em_make(&machine, MEMORY, BUDGET, MAC));
  return machine;
}

static inline uint32_t read_of(em_machine *machine, uint32_t offset) {
  uint32_t value = 0xDEAD;
  OK(em_read(machine, offset, &value));
  return value;
}

static inline size_t reach(em_machine *machine) {
  size_t count = 12345;
  OK(em_can_go_back(machine, &count));
  return count;
}

/* a descriptor: its buffer, the length, and octets 11 (CMD) and 12 (status) */
static inline void put_descriptor(em_machine *machine, uint64_t at, uint64_t buffer, unsigned length, uint8_t command) {
  uint8_t octets[16] = {0};
  for (int i = 0; i < 8; i++) octets[i] = (uint8_t)(buffer >> 8 * i);
  octets[8] = (uint8_t)length;
  octets[9] = (uint8_t)(length >> 8);
  octets[11] = command;
  OK(em_poke(machine, at, octets, sizeof octets));
}

/* a frame to ff:ff:ff:ff:ff:ff, of octets that count up */
static inline void fill(uint8_t *frame, size_t length) {
  for (size_t i = 0; i < length; i++) frame[i] = i < 6 ? 0xFF : (uint8_t)i;
}

static inline void set_receiving(em_machine *machine) {
  OK(em_set_link(machine, true));
  OK(em_write(machine, RDBAL, RX_RING));
  OK(em_write(machine, RDLEN, 16 * DESCRIPTORS));
  OK(em_write(machine, RDT, 4));
  for (unsigned i = 0; i < DESCRIPTORS; i++) put_descriptor(machine, RX_RING + 16 * i, BUFFER + 0x800 * i, 0, 0);
  OK(em_write(machine, RCTL, RCTL_EN | RCTL_UPE | RCTL_BAM)); /* broadcasts too */
}

#endif
