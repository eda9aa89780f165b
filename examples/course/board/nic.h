/* The board that a driver in C stands on. Of these files nothing is to be changed: the tests take their own copies. */
#ifndef NIC_H
#define NIC_H
#include "registers.h"

#include <stdbool.h>
#include <stddef.h>
#include <stdint.h>

/* ---- what the board does for the driver */

/* The driver reads or writes a register. The adapter acts behind each access, and between two calls of the driver: so a
   loop that only looks at memory waits for ever. */
#define nic_read(offset) nic_read_from((offset), __FILE__, __LINE__)
#define nic_write(offset, value) nic_write_from((offset), (value), __FILE__, __LINE__)

uint32_t nic_read_from(uint32_t offset, const char *file, int line);
void nic_write_from(uint32_t offset, uint32_t value, const char *file, int line);

/* Where the driver finds memory. The adapter's addresses are physical, the driver's pointers are not: nic_memory gives the
   pointer to an address, and nic_address the address that a pointer has for the adapter. */
void *nic_memory(uint64_t address);
uint64_t nic_address(const void *pointer);

/* ---- descriptors, as the manual's chapters 3.2 and 3.3 have them */

struct rx_descriptor {
  uint64_t buffer; /* the buffer's physical address */
  uint16_t length, checksum;
  uint8_t status, errors;
  uint16_t special;
};

struct tx_descriptor {
  uint64_t buffer; /* the buffer's physical address */
  uint16_t length;
  uint8_t checksum_offset, command, status, checksum_start;
  uint16_t special;
};

/* ---- what the driver has: each lab's handout says which of them */

/* labs 2 to 6: sets the adapter up */
void start(void);

/* lab 1 */
bool link_is_up(void);
void mac_address(uint8_t mac[6]);
uint16_t eeprom_word(unsigned address);
bool eeprom_is_good(void);
uint64_t frames_received(void);

/* lab 2: puts the next packet into `packet`, which has room for a buffer, and gives its length; 0 where there is none */
size_t receive(uint8_t *packet);

/* lab 3: whether the packet is taken */
bool transmit(const uint8_t *packet, size_t length);

/* labs 4 and 6: whether the adapter has interrupted */
bool interrupt(void);

/* lab 5: takes part in a group, and leaves it */
void join(const uint8_t group[6]);
void leave(const uint8_t group[6]);

/* lab 6: whether the page is taken */
bool transmit_page(void *page, size_t length);

/* ---- what the rest of the system does for a driver */

/* lab 4: a packet was received; the link went up or down */
void deliver(const uint8_t *packet, size_t length);
void link_changed(bool up);

/* lab 6: a page of PAGE_SIZE octets, or NULL; a page is given back; a page with a packet is handed on */
#define PAGE_SIZE 4096u
void *kalloc(void);
void kfree(void *page);
void net_rx(void *page, size_t length);

#endif
