/* A driver as a teaching kernel has it: rings and packets lie in pages that a page allocator gave, descriptors name them
   by their addresses, and what arrives is taken in the handler of an interrupt. It gives buffers back four at a time,
   and clears DD in memory alone. Its pages come from a buffer that is attached, by functions or as a region: at the end
   of guest memory of so many octets, which begins at an address.

   10,000 frames arrive in bursts, and the driver sends each back: each comes once, in order, and goes out once.

       paged functions|region BASE OCTETS    in hexadecimal; the last line is `N passed, M failed` */
#include "bunjelav.h"

#include <stdio.h>
#include <stdlib.h>
#include <string.h>

enum { PAGES = 64, PAGE = 4096, FRAMES = 10000 };

static uint8_t pages[PAGES * PAGE];
static uint64_t pages_at; /* where they lie */
static em_machine machine = EM_NO_MACHINE;
static unsigned passed, failed;

static void must(uint32_t refusal) {
  if (refusal == EM_OK) return;
  fprintf(stderr, "paged: refused: %u\n", (unsigned)refusal);
  exit(1);
}

/* ---- the kernel: pages, addresses, registers */

static unsigned pages_given;

static void *page_alloc(void) {
  void *page = pages + PAGE * (size_t)pages_given++;
  if (pages_given > PAGES) exit(2);
  memset(page, 5, PAGE); /* junk */
  return page;
}

static uint64_t physical(volatile const void *at) {
  return pages_at + (uint64_t)((volatile const uint8_t *)at - pages);
}

static void *virtual_of(uint64_t address) { return pages + (address - pages_at); }

static void reg_write(uint32_t offset, uint32_t value) { must(em_write(&machine, offset, value)); }

static uint32_t reg_read(uint32_t offset) {
  uint32_t value;
  must(em_read(&machine, offset, &value));
  return value;
}

/* ---- the driver */

enum {
  CTRL = 0x0000, ICR = 0x00C0, IMS = 0x00D0, RCTL = 0x0100, TCTL = 0x0400, TIPG = 0x0410,
  RDBAL = 0x2800, RDBAH = 0x2804, RDLEN = 0x2808, RDH = 0x2810, RDT = 0x2818,
  TDBAL = 0x3800, TDBAH = 0x3804, TDLEN = 0x3808, TDH = 0x3810, TDT = 0x3818, MTA = 0x5200
};
enum { RST = 1 << 26, EN = 1 << 1, PSP = 1 << 3, BAM = 1 << 15, SECRC = 1 << 26, RXT0 = 1 << 7 };
enum { DD = 1, RX_EOP = 2, TX_EOP = 1, TX_RS = 8, RINGS = 16, BATCH = 4 };

struct rx_descriptor {
  uint64_t addr;
  uint16_t length, csum;
  uint8_t status, errors;
  uint16_t special;
};

struct tx_descriptor {
  uint64_t addr;
  uint16_t length;
  uint8_t cso, cmd, status, css;
  uint16_t special;
};

static volatile struct rx_descriptor *rx_ring;
static volatile struct tx_descriptor *tx_ring;
static void *free_pages[2 * RINGS];
static unsigned free_count, rx_next, tx_next;

static void deliver(const uint8_t *packet, unsigned length);

static void nic_init(void) {
  reg_write(CTRL, RST);
  rx_ring = page_alloc();
  tx_ring = page_alloc();
  memset((void *)rx_ring, 0, PAGE);
  memset((void *)tx_ring, 0, PAGE);
  for (unsigned i = 0; i < RINGS; i++) {
    rx_ring[i].addr = physical(page_alloc());
    tx_ring[i].status = DD;
    free_pages[free_count++] = page_alloc();
  }
  free_pages[free_count++] = page_alloc(); /* (each descriptor keeps one until it is used again) */
  for (unsigned i = 0; i < 128; i++) reg_write(MTA + 4 * i, 0);
  reg_write(RDBAL, (uint32_t)physical(rx_ring)), reg_write(RDBAH, (uint32_t)(physical(rx_ring) >> 32));
  reg_write(RDLEN, RINGS * sizeof *rx_ring), reg_write(RDH, 0), reg_write(RDT, RINGS - 1);
  reg_write(TDBAL, (uint32_t)physical(tx_ring)), reg_write(TDBAH, (uint32_t)(physical(tx_ring) >> 32));
  reg_write(TDLEN, RINGS * sizeof *tx_ring), reg_write(TDH, 0), reg_write(TDT, 0);
  reg_write(TIPG, 10 | 8 << 10 | 6 << 20);
  reg_write(TCTL, EN | PSP | 0x10 << 4 | 0x40 << 12);
  reg_write(RCTL, EN | BAM | SECRC);
  reg_write(IMS, RXT0);
}

/* Sends a packet that fills the head of a page. The page of the packet that was sent from there before is free again. */
static int nic_send(void *page, unsigned length) {
  volatile struct tx_descriptor *d = &tx_ring[tx_next];
  if (!(d->status & DD)) return -1;
  if (d->addr) free_pages[free_count++] = virtual_of(d->addr);
  d->addr = physical(page);
  d->length = (uint16_t)length;
  d->cmd = TX_EOP | TX_RS;
  d->status = 0;
  tx_next = (tx_next + 1) % RINGS;
  reg_write(TDT, tx_next);
  return 0;
}

static void nic_interrupt(void) {
  (void)reg_read(ICR);
  while (rx_ring[rx_next].status & DD) {
    volatile struct rx_descriptor *d = &rx_ring[rx_next];
    deliver(virtual_of(d->addr), d->length);
    d->status = 0;
    if (rx_next % BATCH == BATCH - 1) reg_write(RDT, rx_next);
    rx_next = (rx_next + 1) % RINGS;
  }
}

/* ---- what stands above it: each packet goes out again */

static unsigned delivered, checked;

static void run_engines(void) {
  size_t steps;
  must(em_run_rx(&machine, SIZE_MAX, &steps));
  must(em_run_tx(&machine, SIZE_MAX, &steps));
}

/* the octets that frame n has: 60 to 1,514 of them */
static unsigned frame_of(unsigned n, uint8_t *frame) {
  unsigned length = 60 + n * 37 % 1455;
  for (unsigned i = 0; i < length; i++) frame[i] = i < 6 ? 0xFF : (uint8_t)(i * 3 + n);
  memcpy(frame + 14, &n, sizeof n);
  return length;
}

static void deliver(const uint8_t *packet, unsigned length) {
  uint8_t wanted[1514];
  if (length != frame_of(delivered, wanted) || memcmp(packet, wanted, length)) failed++;
  delivered++;
  void *page = free_count > 0 ? free_pages[--free_count] : NULL;
  if (page == NULL) exit(3);
  memcpy(page, packet, length);
  if (nic_send(page, length) != 0) {
    run_engines();
    if (nic_send(page, length) != 0) exit(4);
  }
}

static void check_wire(void) {
  static uint8_t out[EM_MOST_SENT];
  uint8_t wanted[1514];
  size_t count, length;
  for (must(em_wire_count(&machine, &count)); checked < count; checked++) {
    must(em_wire_frame(&machine, checked, out, sizeof out, &length));
    bool is_one = length == frame_of(checked, wanted) && !memcmp(out, wanted, length);
    is_one ? passed++ : failed++;
  }
}

/* ---- its memory, by functions */

static bool is_here(uint64_t address, size_t length) {
  return address >= pages_at && address - pages_at <= sizeof pages && length <= sizeof pages - (address - pages_at);
}

static bool read_pages(void *context, uint64_t address, uint8_t *out, size_t length) {
  (void)context;
  if (!is_here(address, length)) return false;
  memcpy(out, virtual_of(address), length);
  return true;
}

static bool write_pages(void *context, uint64_t address, const uint8_t *octets, size_t length) {
  (void)context;
  if (!is_here(address, length)) return false;
  memcpy(virtual_of(address), octets, length);
  return true;
}

int main(int count, char **words) {
  static const uint8_t mac[6] = {0x52, 0x54, 0x00, 0x12, 0x34, 0x56};
  if (count < 4) return 2;
  const bool is_region = strcmp(words[1], "region") == 0;
  const uint64_t base = strtoull(words[2], NULL, 16), octets = strtoull(words[3], NULL, 16);
  pages_at = base + octets - sizeof pages;
  const em_region region = {pages_at, sizeof pages, pages};
  const em_ram by_functions = {NULL, read_pages, write_pages, NULL, 0}, by_region = {NULL, NULL, NULL, &region, 1};
  unsigned random = 1;
  must(em_make_at(&machine, base, octets, 1048576, mac));
  must(em_attach(&machine, is_region ? &by_region : &by_functions));
  must(em_set_link(&machine, true));
  nic_init();
  for (unsigned number = 0; number < FRAMES || delivered < number;) {
    random = random * 1103515245u + 12345u;
    for (unsigned burst = 1 + random / 65536 % 20; burst > 0 && number < FRAMES; burst--) {
      uint8_t frame[1514];
      em_note event;
      unsigned length = frame_of(number, frame);
      must(em_arrive(&machine, frame, length, &event));
      if (event.kind != EM_STORED) break; /* it comes again */
      number++;
    }
    uint32_t line;
    run_engines();
    must(em_line(&machine, &line));
    if (line) nic_interrupt();
    run_engines();
    check_wire();
  }
  failed += delivered != FRAMES || checked != FRAMES;
  em_free(&machine);
  printf("%u passed, %u failed\n", passed, failed);
  return failed != 0;
}
