/* Lab 1: the adapter's registers. The handout says what each function gives. */
#include "nic.h"

bool link_is_up(void) {
  return false; /* STATUS */
}

void mac_address(uint8_t mac[6]) {
  (void)mac; /* RAL0, RAH0 */
}

uint16_t eeprom_word(unsigned address) {
  (void)address; /* EERD */
  return 0;
}

bool eeprom_is_good(void) {
  return false;
}

uint64_t frames_received(void) {
  return 0; /* GPRC */
}
