/* The adapter's PCI configuration space: what a host finds it by, and where it maps its registers. */
#ifndef GUEST_CONFIG_H
#define GUEST_CONFIG_H

#include <stdbool.h>
#include <stdint.h>

enum {
  CONFIG_SIZE = 256,
  WINDOW_SIZE = 0x20000, /* what BAR 0 maps: the registers */
  IO_SIZE = 64           /* what BAR 2 maps: IOADDR and IODATA */
};

struct config {
  uint8_t octets[CONFIG_SIZE];
};

/* As after power on, and after a reset of the bus. */
void config_reset(struct config *config);

/* Whether an access of so many octets lies in the space: 1, 2 or 4 of them. */
bool config_has(uint32_t address, uint32_t length);

/* Reads octets that the space has; `interrupts` is the level of the interrupt line, which STATUS shows. */
uint32_t config_read(const struct config *config, uint32_t address, uint32_t length, bool interrupts);

/* Writes octets that the space has: of each register the bits that its row lets through. */
void config_write(struct config *config, uint32_t address, uint32_t length, uint32_t value);

/* Where BAR 0 and BAR 2 lie on the bus. */
uint32_t config_window(const struct config *config);
uint32_t config_io(const struct config *config);

/* What the command register allows. */
bool config_is_master(const struct config *config);
bool config_disables_interrupts(const struct config *config);

#endif
