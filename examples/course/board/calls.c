/* The board in C: each line of the tests calls a function of the driver, and is answered. */
#include "line.h"
#include "nic.h"

#include <inttypes.h>
#include <stdio.h>
#include <stdlib.h>
#include <string.h>

/* A driver has the functions of its lab alone. */
#pragma weak start
#pragma weak link_is_up
#pragma weak mac_address
#pragma weak eeprom_word
#pragma weak eeprom_is_good
#pragma weak frames_received
#pragma weak receive
#pragma weak transmit
#pragma weak interrupt
#pragma weak join
#pragma weak leave
#pragma weak transmit_page

enum { OCTETS_MOST = 16384, MAC = 6 };

static void answer_number(uint64_t number) {
  char text[LINE_SHORT];
  snprintf(text, sizeof text, "= %" PRIu64 "\n", number);
  line_say(text);
}

static void say_octets(const char *word, const uint8_t *octets, size_t length) {
  static char text[LINE_MOST];
  size_t at = (size_t)snprintf(text, LINE_SHORT, "%s ", word);
  for (size_t i = 0; i < length && i < OCTETS_MOST; i++) at += (size_t)sprintf(text + at, "%02x", octets[i]);
  strcpy(text + at, "\n");
  line_say(text);
}

static size_t octets_of(const char *digits, uint8_t *octets) {
  size_t length = 0;
  for (unsigned octet; length < OCTETS_MOST && sscanf(digits + 2 * length, "%2x", &octet) == 1;)
    octets[length++] = (uint8_t)octet;
  return length;
}

static uint8_t octets[OCTETS_MOST];

static void call_start(const char *words) {
  (void)words;
  start();
  line_say("= ok\n");
}

static void call_link(const char *words) {
  (void)words;
  answer_number(link_is_up());
}

static void call_mac(const char *words) {
  uint8_t mac[MAC] = {0};
  (void)words;
  mac_address(mac);
  say_octets("=", mac, sizeof mac);
}

static void call_word(const char *words) { answer_number(eeprom_word((unsigned)atoi(words))); }

static void call_good(const char *words) {
  (void)words;
  answer_number(eeprom_is_good());
}

static void call_frames(const char *words) {
  (void)words;
  answer_number(frames_received());
}

static void call_receive(const char *words) {
  (void)words;
  size_t length = receive(octets);
  if (length) say_octets("=", octets, length);
  else line_say("= none\n");
}

static void call_transmit(const char *words) {
  size_t length = octets_of(words, octets);
  answer_number(transmit(octets, length));
  memset(octets, 0xEE, length); /* the packet is its owner's again, who uses its memory for something else */
}

static void call_interrupt(const char *words) {
  (void)words;
  answer_number(interrupt());
}

static void call_join(const char *words) {
  octets_of(words, octets);
  join(octets);
  line_say("= ok\n");
}

static void call_leave(const char *words) {
  octets_of(words, octets);
  leave(octets);
  line_say("= ok\n");
}

static void call_page(const char *words) {
  char *rest;
  uint64_t address = strtoull(words, &rest, 10);
  answer_number(transmit_page(nic_memory(address), strtoul(rest, NULL, 10)));
}

/* ---- what the driver calls */

void deliver(const uint8_t *packet, size_t length) {
  say_octets("deliver", packet, length);
  line_next();
}

void link_changed(bool up) {
  line_say(up ? "link 1\n" : "link 0\n");
  line_next();
}

void *kalloc(void) {
  line_say("kalloc\n");
  uint64_t address = strtoull(line_next(), NULL, 10);
  return address ? nic_memory(address) : NULL;
}

void kfree(void *page) {
  char text[LINE_SHORT];
  snprintf(text, sizeof text, "kfree %" PRIu64 "\n", nic_address(page));
  line_say(text);
  line_next();
}

void net_rx(void *page, size_t length) {
  char text[LINE_SHORT];
  snprintf(text, sizeof text, "net_rx %" PRIu64 " %zu\n", nic_address(page), length);
  line_say(text);
  line_next();
}

/* ---- the calls, by their names */

struct call {
  const char *name;
  bool is_there;
  void (*make)(const char *words);
};

int main(int count, char **words) {
  const struct call calls[] = {
      {"start", start, call_start},
      {"link_is_up", link_is_up, call_link},
      {"mac_address", mac_address, call_mac},
      {"eeprom_word", eeprom_word, call_word},
      {"eeprom_is_good", eeprom_is_good, call_good},
      {"frames_received", frames_received, call_frames},
      {"receive", receive, call_receive},
      {"transmit", transmit, call_transmit},
      {"interrupt", interrupt, call_interrupt},
      {"join", join, call_join},
      {"leave", leave, call_leave},
      {"transmit_page", transmit_page, call_page},
  };
  if (count != 5) return fputs("the tests start this program: ./test LAB c\n", stderr), 1;
  board_open(words);
  for (;;) {
    char *rest = line_next(), *name = strsep(&rest, " ");
    const struct call *call = calls;
    while (strcmp(call->name, name) != 0) call++;
    if (call->is_there) call->make(rest ? rest : "");
    else line_say("?\n");
  }
}
