/* Lab 1, a solution. */
#include "nic.h"

enum { WORDS = 64, GOOD_SUM = 0xBABA, LOW = 4, MAC = 6 };

static uint64_t frames;

bool link_is_up(void) { return nic_read(STATUS) & STATUS_LU; }

void mac_address(uint8_t mac[6]) {
  uint32_t low = nic_read(RAL0), high = nic_read(RAH0);
  for (int i = 0; i < MAC; i++) mac[i] = (uint8_t)(i < LOW ? low >> 8 * i : high >> 8 * (i - LOW));
}

uint16_t eeprom_word(unsigned address) {
  uint32_t value;
  nic_write(EERD, address << EERD_ADDR_SHIFT | EERD_START);
  do value = nic_read(EERD);
  while (!(value & EERD_DONE));
  return (uint16_t)(value >> EERD_DATA_SHIFT);
}

bool eeprom_is_good(void) {
  uint16_t sum = 0;
  for (unsigned i = 0; i < WORDS; i++) sum += eeprom_word(i);
  return sum == GOOD_SUM;
}

uint64_t frames_received(void) { return frames += nic_read(GPRC); }
