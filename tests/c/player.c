/* Plays a script of em_bench's language by calls of the C library, and prints em_bench's text: events, looks and steps
   back, without a driver.

       player BUDGET <SCRIPT */
#include "bunjelav.h"

#include <inttypes.h>
#include <stdio.h>
#include <stdlib.h>
#include <string.h>

enum { MEMORY = 65536, MOST = 32768 };

static uint8_t octets[MOST], out[MOST];

static void die(const char *why) {
  fprintf(stderr, "player: %s\n", why);
  exit(3);
}

/* Prints what refused an event, and tells whether anything did. */
static bool refused(uint32_t why) {
  uint8_t text[80];
  size_t length = 0;
  if (why == EM_OK) return false;
  if (em_refusal(why, text, sizeof text, &length) != EM_OK) die("a refusal without a name");
  const uint8_t *end = memchr(text, ':', length);
  printf("refused %.*s\n", (int)(end - text), (const char *)text);
  return true;
}

static void print_octets(const uint8_t *from, size_t count) {
  for (size_t i = 0; i < count; i++) printf("%02X", from[i]);
  printf("\n");
}

static size_t octets_of(const char *digits) {
  size_t count = strlen(digits) / 2;
  for (size_t i = 0; i < count; i++) {
    unsigned value;
    sscanf(digits + 2 * i, "%2x", &value);
    octets[i] = (uint8_t)value;
  }
  return count;
}

static void print_note(const em_note *note) {
  static const char *const dropped[] = {"down", "disabled", "rejected", "undersize", "oversize", "missed"};
  switch (note->kind) {
    case EM_RX_IDLE:
    case EM_TX_IDLE: printf("idle\n"); break;
    case EM_WROTE: printf("wrote %" PRIu32 "\n", note->value); break;
    case EM_FETCHED: printf("fetched %" PRIu32 "\n", note->value); break;
    case EM_SENT: printf("sent %" PRIu32 " %" PRIu32 "\n", note->value, note->length); break;
    case EM_STORED: printf("stored\n"); break;
    default: printf("dropped %s\n", dropped[note->kind - EM_DOWN]);
  }
}

static void print_wire(em_machine *machine) {
  size_t count = 0, length = 0;
  if (em_wire_count(machine, &count) != EM_OK) die("wire");
  printf("wire %zu\n", count);
  for (size_t i = 0; i < count; i++) {
    if (em_wire_frame(machine, i, out, EM_MOST_SENT, &length) != EM_OK) die("a frame of the wire");
    print_octets(out, length);
  }
}

static void print_registers(em_machine *machine) {
  em_register registers[EM_REGISTERS];
  size_t count = 0;
  if (em_registers(machine, registers, EM_REGISTERS, &count) != EM_OK) die("registers");
  for (size_t i = 0; i < count; i++) printf("%05" PRIX32 " %08" PRIX32 "\n", registers[i].offset, registers[i].value);
}

static void go_back(em_machine *machine, const char *most) {
  size_t done = 0;
  if (em_back(machine, most ? strtoul(most, NULL, 10) : 1, &done) != EM_OK) die("back");
  if (most) {
    printf("back %zu\n", done);
  } else {
    printf("%s\n", done ? "ok" : "refused Empty");
  }
}

/* An event of guest memory, or a frame that arrives. */
static void bring(em_machine *machine, const char *name, const char *first, const char *second) {
  em_note note;
  if (!strcmp(name, "poke")) {
    uint64_t address = strtoull(first, NULL, 16);
    if (!refused(em_poke(machine, address, octets, octets_of(second)))) printf("ok\n");
    return;
  }
  memset(octets, 0, sizeof octets);
  size_t length = octets_of(first);
  if (second) length = strtoul(second, NULL, 10);
  if (!refused(em_arrive(machine, octets, length, &note))) print_note(&note);
}

static void play(em_machine *machine, const char *name, const char *first, const char *second) {
  em_note note;
  uint32_t value;
  if (!strcmp(name, "r")) {
    if (!refused(em_read(machine, (uint32_t)strtoul(first, NULL, 16), &value))) printf("%08" PRIX32 "\n", value);
  } else if (!strcmp(name, "w")) {
    uint32_t offset = (uint32_t)strtoul(first, NULL, 16);
    if (!refused(em_write(machine, offset, (uint32_t)strtoul(second, NULL, 16)))) printf("ok\n");
  } else if (!strcmp(name, "poke") || !strcmp(name, "arrive")) {
    bring(machine, name, first, second);
  } else if (!strcmp(name, "peek")) {
    size_t length = strtoul(second, NULL, 10);
    if (!refused(em_peek(machine, strtoull(first, NULL, 16), out, length))) print_octets(out, length);
  } else if (!strcmp(name, "rx")) {
    if (!refused(em_rx_step(machine, &note))) print_note(&note);
  } else if (!strcmp(name, "tx")) {
    if (!refused(em_tx_step(machine, &note))) print_note(&note);
  } else if (!strcmp(name, "link")) {
    if (!refused(em_set_link(machine, !strcmp(first, "up")))) printf("ok\n");
  } else if (!strcmp(name, "line")) {
    if (!refused(em_line(machine, &value))) printf("%" PRIu32 "\n", value);
  } else if (!strcmp(name, "regs")) {
    print_registers(machine);
  } else if (!strcmp(name, "wire")) {
    print_wire(machine);
  } else if (!strcmp(name, "back")) {
    go_back(machine, first);
  } else {
    die(name);
  }
}

int main(int count, char **words) {
  static const uint8_t mac[6] = {0x52, 0x54, 0x00, 0x12, 0x34, 0x56};
  static char line[2 * MOST + 64];
  em_machine machine = EM_NO_MACHINE;
  if (count != 2 || em_make(&machine, MEMORY, strtoull(words[1], NULL, 10), mac) != EM_OK) die("no machine");
  while (fgets(line, sizeof line, stdin)) {
    const char *name = strtok(line, " \n");
    if (!name) continue;
    const char *first = strtok(NULL, " \n");
    play(&machine, name, first, strtok(NULL, " \n"));
  }
  em_free(&machine);
  return 0;
}
