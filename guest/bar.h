/* Accesses of what the adapter's base address registers map: the window of its registers, and the I/O ports IOADDR and
   IODATA, by which a register is accessed without the window. */
#ifndef GUEST_BAR_H
#define GUEST_BAR_H

#include <stdint.h>

#include "config.h"
#include "device.h"
#include "message.h"

struct bar {
  uint32_t io_address; /* what was written to IOADDR */
};

/* Reads 1, 2, 4 or 8 octets. What no register answers reads as zeros; what lies outside, as ones. */
uint64_t bar_read(struct bar *bar, const struct config *config, struct device *device, const struct bar_access *access);

/* Writes 4 octets, or 8 as twice 4. A write of fewer is ignored, as the adapter's registers want all four. */
void bar_write(struct bar *bar, const struct config *config, struct device *device, const struct bar_access *access);

#endif
