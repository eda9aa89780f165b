/* The words of em_guest's command line. */
#ifndef GUEST_OPTIONS_H
#define GUEST_OPTIONS_H

#include <stdbool.h>
#include <stddef.h>
#include <stdint.h>

#include "interrupt.h"
#include "stop.h"

struct options {
  const char *run, *name, *listen, *qtest, *net, *tap, *peer, *pcap_in, *pcap_out, *symbols, *debugger;
  const char *mac_text, *slot_text, *profile_text;
  bool over, prints, has_counter;
  uint8_t mac[6];
  uint32_t slot; /* of the PCI bus */
  uint32_t profile; /* of enum em_profiles */
  struct input inputs[MOST_INPUTS];
  size_t input_count;
  struct stop_at stops[MOST_STOPS];
  size_t stop_count;
  char **words; /* of QEMU, behind `--`; they end with NULL */
};

/* The address that the adapter has where no other is given. */
extern const uint8_t options_mac[6];

enum parsed { PARSED, HELPED, REFUSED };

/* Reads the words. HELPED where help or version were printed, which is all that was asked for; REFUSED where that is
 * told. */
enum parsed options_parse(struct options *options, int count, char **words);

#endif
