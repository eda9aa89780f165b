#include "config.h"

#include <stddef.h>

enum {
  COMMAND = 0x04,
  COMMAND_MASTER = 0x0004,
  COMMAND_DISABLE = 0x0400,
  STATUS_INTERRUPTS = 0x08, /* in the low octet of STATUS */
  STATUS = 0x06,
  BAR_0 = 0x10,
  BAR_2 = 0x18
};

/* Each register of four octets that is not zero, as it is after power on, and the bits of it that can be written.
   The numbers are those of the 82540EM. It has no capability here: power management and MSI are left out. */
static const struct row {
  uint8_t offset;
  uint32_t start, writable;
} rows[] = {
    {0x00, 0x100E8086, 0x00000000},  /* device, vendor */
    {0x04, 0x02200000, 0x00000557},  /* STATUS: 66 MHz, DEVSEL medium; I/O, memory, master, MWI, PERR, SERR, INTx */
    {0x08, 0x02000002, 0x00000000},  /* an Ethernet controller, of revision 2 */
    {0x0C, 0x00000000, 0x0000FFFF},  /* a header of type 0; latency timer, cache line */
    {BAR_0, 0x00000000, 0xFFFE0000}, /* memory, 32 bits, 128 KiB: the registers */
    {BAR_2, 0x00000001, 0xFFFFFFC0}, /* I/O, 64 octets */
    {0x2C, 0x001E8086, 0x00000000},  /* subsystem: PRO/1000 MT Desktop, Intel */
    {0x3C, 0x00FF0100, 0x000000FF},  /* Max_Lat, Min_Gnt, pin A; the line is the host's */
};

static uint32_t at(const struct config *config, uint32_t address) {
  const uint8_t *octet = config->octets + address;
  return octet[0] | (uint32_t)octet[1] << 8 | (uint32_t)octet[2] << 16 | (uint32_t)octet[3] << 24;
}

void config_reset(struct config *config) {
  *config = (struct config){0};
  for (size_t i = 0; i < sizeof rows / sizeof *rows; i++)
    for (unsigned octet = 0; octet < 4; octet++)
      config->octets[rows[i].offset + octet] = (uint8_t)(rows[i].start >> 8 * octet);
}

bool config_has(uint32_t address, uint32_t length) {
  return (length == 1 || length == 2 || length == 4) && address <= CONFIG_SIZE - length;
}

uint32_t config_read(const struct config *config, uint32_t address, uint32_t length, bool interrupts) {
  uint32_t value = 0;
  for (uint32_t i = 0; i < length; i++) {
    uint8_t octet = config->octets[address + i];
    if (address + i == STATUS && interrupts) octet |= STATUS_INTERRUPTS;
    value |= (uint32_t)octet << 8 * i;
  }
  return value;
}

/* The bits of an octet that can be written. */
static uint8_t writable(uint32_t address) {
  for (size_t i = 0; i < sizeof rows / sizeof *rows; i++)
    if (rows[i].offset == (address & ~3u)) return (uint8_t)(rows[i].writable >> 8 * (address & 3));
  return 0;
}

void config_write(struct config *config, uint32_t address, uint32_t length, uint32_t value) {
  for (uint32_t i = 0; i < length; i++) {
    uint8_t *octet = config->octets + address + i, mask = writable(address + i);
    *octet = (uint8_t)((*octet & ~mask) | ((value >> 8 * i) & mask));
  }
}

uint32_t config_window(const struct config *config) {
  return at(config, BAR_0) & ~15u;
}

uint32_t config_io(const struct config *config) {
  return at(config, BAR_2) & ~3u;
}

bool config_is_master(const struct config *config) {
  return at(config, COMMAND) & COMMAND_MASTER;
}

bool config_disables_interrupts(const struct config *config) {
  return at(config, COMMAND) & COMMAND_DISABLE;
}
