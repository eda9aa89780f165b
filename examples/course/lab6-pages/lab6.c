/* Lab 6: a driver for a kernel with pages, whose memory begins at 80000000h. The handout says what each function does. */
#include "nic.h"

#include <string.h>

enum { COUNT = 16 };

static struct rx_descriptor *rx_ring;
static struct tx_descriptor *tx_ring;
/* the page of each descriptor: the kernel's pointers */
static void *rx_pages[COUNT], *tx_pages[COUNT];

void start(void) {
  /* Both rings, each in a page of kalloc's; a page for each receive descriptor; RCTL and TCTL; IMS last */
  (void)rx_ring, (void)tx_ring, (void)rx_pages, (void)tx_pages;
}

bool transmit_page(void *page, size_t length) {
  (void)page, (void)length;
  /* 1. kfree the pages that are sent
     2. is there room? Else the page stays its caller's
     3. the descriptor with the page's physical address, and then TDT */
  return false;
}

bool interrupt(void) {
  /* For each packet: a new page from kalloc takes the place of its page, which net_rx gets. Without a new page the
     packet is dropped, and its page stays */
  return false;
}
