#include "bar.h"

#include <stdbool.h>

enum { IOADDR = 0, IODATA = 4 };

/* Where an access lies in what its BAR maps; false where it is of no size that there is, or leaves that. */
static bool finds(const struct config *config, const struct bar_access *access, uint32_t *offset) {
  uint64_t base = access->is_memory ? config_window(config) : config_io(config);
  uint64_t size = access->is_memory ? WINDOW_SIZE : IO_SIZE;
  bool is_size = access->size == 1 || access->size == 2 || access->size == 4 || access->size == 8;
  if (!is_size || access->address < base || access->address - base > size - access->size) return false;
  *offset = (uint32_t)(access->address - base);
  return true;
}

/* The four octets at an offset that is a multiple of 4. */
static uint32_t read_four(struct bar *bar, struct device *device, bool is_memory, uint32_t offset) {
  if (is_memory) return device_read(device, offset);
  if (offset == IOADDR) return bar->io_address;
  if (offset == IODATA && bar->io_address < REGISTERS_END) return device_read(device, bar->io_address & ~3u);
  return 0;
}

static void write_four(struct bar *bar, struct device *device, bool is_memory, uint32_t offset, uint32_t value) {
  if (is_memory) device_write(device, offset, value);
  else if (offset == IOADDR) bar->io_address = value;
  else if (offset == IODATA && bar->io_address < REGISTERS_END) device_write(device, bar->io_address & ~3u, value);
}

/* What an access of so many octets reads where nothing answers. */
static uint64_t ones(uint32_t size) {
  return size == 0 || size >= 8 ? UINT64_MAX : UINT64_MAX >> (64 - 8 * size);
}

uint64_t bar_read(struct bar *bar, const struct config *config, struct device *device,
                  const struct bar_access *access) {
  uint32_t offset;
  if (!finds(config, access, &offset)) {
    device->tally.odd++;
    return ones(access->size);
  }
  if (access->size != 4 || offset % 4 != 0) device->tally.odd++;
  uint64_t value = read_four(bar, device, access->is_memory, offset & ~3u);
  if (offset % 4 + access->size > 4)
    value |= (uint64_t)read_four(bar, device, access->is_memory, (offset & ~3u) + 4) << 32;
  return (value >> 8 * (offset % 4)) & ones(access->size);
}

void bar_write(struct bar *bar, const struct config *config, struct device *device, const struct bar_access *access) {
  uint32_t offset;
  if (!finds(config, access, &offset) || access->size < 4 || offset % 4 != 0) {
    device->tally.odd++;
    return;
  }
  write_four(bar, device, access->is_memory, offset, (uint32_t)access->value);
  if (access->size != 8) return;
  device->tally.odd++;
  write_four(bar, device, access->is_memory, offset + 4, (uint32_t)(access->value >> 32));
}
