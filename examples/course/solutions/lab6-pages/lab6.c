/* Lab 6, a solution. */
#include "nic.h"

#include <string.h>

enum { COUNT = 16 };

static struct rx_descriptor *rx_ring;
static struct tx_descriptor *tx_ring;
static void *rx_pages[COUNT], *tx_pages[COUNT];
static unsigned rx_next, tx_tail, tx_done;

static void fill(unsigned index) {
  rx_ring[index] = (struct rx_descriptor){.buffer = nic_address(rx_pages[index])};
}

static void start_receiver(void) {
  rx_ring = kalloc();
  memset(rx_ring, 0, PAGE_SIZE);
  for (unsigned i = 0; i < COUNT; i++) {
    rx_pages[i] = kalloc();
    fill(i);
  }
  uint64_t at = nic_address(rx_ring);
  nic_write(RDBAL, (uint32_t)at);
  nic_write(RDBAH, (uint32_t)(at >> 32));
  nic_write(RDLEN, COUNT * sizeof rx_ring[0]);
  nic_write(RDH, 0);
  nic_write(RDT, COUNT - 1);
  nic_write(RCTL, RCTL_EN | RCTL_BAM | RCTL_BSIZE_2048);
}

static void start_transmitter(void) {
  tx_ring = kalloc();
  memset(tx_ring, 0, PAGE_SIZE);
  uint64_t at = nic_address(tx_ring);
  nic_write(TDBAL, (uint32_t)at);
  nic_write(TDBAH, (uint32_t)(at >> 32));
  nic_write(TDLEN, COUNT * sizeof tx_ring[0]);
  nic_write(TDH, 0);
  nic_write(TDT, 0);
  nic_write(TCTL, TCTL_EN | TCTL_PSP);
}

void start(void) {
  start_receiver();
  start_transmitter();
  nic_read(ICR); /* what was before does not count */
  nic_write(IMS, INT_RXT0 | INT_RXO);
}

/* Frees the pages that are sent. */
static void free_sent(void) {
  unsigned head = nic_read(TDH);
  for (; tx_done != head; tx_done = (tx_done + 1) % COUNT) kfree(tx_pages[tx_done]);
}

bool transmit_page(void *page, size_t length) {
  unsigned after = (tx_tail + 1) % COUNT;
  free_sent();
  if (after == tx_done) return false;
  tx_pages[tx_tail] = page;
  tx_ring[tx_tail] = (struct tx_descriptor){
      .buffer = nic_address(page), .length = (uint16_t)length, .command = TX_EOP | TX_IFCS | TX_RS};
  tx_tail = after;
  nic_write(TDT, tx_tail);
  return true;
}

static void take_packets(void) {
  while (rx_ring[rx_next].status & RX_DD) {
    void *fresh = kalloc();
    if (fresh) { /* else the packet is dropped, and its page used again */
      net_rx(rx_pages[rx_next], rx_ring[rx_next].length);
      rx_pages[rx_next] = fresh;
    }
    fill(rx_next);
    nic_write(RDT, rx_next);
    rx_next = (rx_next + 1) % COUNT;
  }
}

bool interrupt(void) {
  uint32_t causes = nic_read(ICR);
  if (causes & (INT_RXT0 | INT_RXO)) take_packets();
  return causes != 0;
}
