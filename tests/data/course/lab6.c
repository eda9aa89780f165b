/* Lab 6, another way, as many drivers of xv6 have it: RDT and TDT are read back, and a sent page is freed where its
   descriptor is used again. */
#include "nic.h"

#include <string.h>

enum { RX_COUNT = 16, TX_COUNT = 16 };

static struct rx_descriptor *rx_ring;
static struct tx_descriptor *tx_ring;
static void *rx_bufs[RX_COUNT], *tx_bufs[TX_COUNT];

void start(void) {
  nic_write(IMC, ~0u);
  nic_write(CTRL, nic_read(CTRL) | CTRL_RST);
  nic_write(IMC, ~0u);
  char *both = kalloc();
  memset(both, 0, PAGE_SIZE);
  tx_ring = (struct tx_descriptor *)(void *)both;
  rx_ring = (struct rx_descriptor *)(void *)(both + PAGE_SIZE / 2);
  for (int i = 0; i < TX_COUNT; i++) tx_ring[i].status = TX_DD;
  nic_write(TDBAL, (uint32_t)nic_address(tx_ring));
  nic_write(TDLEN, sizeof tx_ring[0] * TX_COUNT);
  for (int i = 0; i < RX_COUNT; i++) {
    rx_bufs[i] = kalloc();
    rx_ring[i].buffer = nic_address(rx_bufs[i]);
  }
  nic_write(RDBAL, (uint32_t)nic_address(rx_ring));
  nic_write(RDT, RX_COUNT - 1);
  nic_write(RDLEN, sizeof rx_ring[0] * RX_COUNT);
  nic_write(TCTL, TCTL_EN | TCTL_PSP);
  nic_write(RCTL, RCTL_EN | RCTL_BAM);
  nic_write(IMS, INT_RXT0);
}

bool transmit_page(void *page, size_t length) {
  uint32_t tail = nic_read(TDT), after = (tail + 1) % TX_COUNT;
  /* one descriptor stays free, so the one behind the tail has to be done */
  if (!(tx_ring[after].status & TX_DD)) return false;
  if (tx_bufs[tail]) kfree(tx_bufs[tail]);
  tx_bufs[tail] = page;
  tx_ring[tail].buffer = nic_address(page);
  tx_ring[tail].length = (uint16_t)length;
  tx_ring[tail].command = TX_RS | TX_EOP | TX_IFCS;
  tx_ring[tail].status = 0;
  nic_write(TDT, after);
  return true;
}

bool interrupt(void) {
  bool is_mine = nic_read(ICR) != 0;
  for (;;) {
    uint32_t index = (nic_read(RDT) + 1) % RX_COUNT;
    struct rx_descriptor *done = &rx_ring[index];
    if (!(done->status & RX_DD)) return is_mine;
    void *fresh = kalloc();
    if (fresh) net_rx(rx_bufs[index], done->length);
    if (fresh) rx_bufs[index] = fresh;
    done->buffer = nic_address(rx_bufs[index]);
    done->status = 0;
    nic_write(RDT, index);
  }
}
