/* What a kept run's calls and its file share. */
#ifndef BUNJELAV_KEEP_H
#define BUNJELAV_KEEP_H

#include "layer.h"

enum { EEPROM_WORDS = 64 };

/* What a machine is made of, and the tag of its next events. The words are read by events that are taken back. */
em_code what_it_is_of(em_machine *machine, uint32_t *profile, uint64_t *base, uint64_t *size, uint16_t words[EEPROM_WORDS],
                      uint64_t *tag);

/* Puts the text at the file's end. Where that fails the file is closed: nothing is put there any more. */
void put_lines(kept *run);

/* The same of a text that is one line. */
void put_line(kept *run);

/* Keeps which line sent the frames that the newest call sent, and forgets those that it took back. */
void keep_sent(const em_machine *machine, kept *run);

/* ---- by a mapping (keep_map.c): each gives 0, or the number of the host's error */

/* Opens the file, which no other run is kept in by a mapping. */
int map_begins(kept *run, const char *path);

/* Puts the text behind the lines that are there. */
int map_lines(kept *run);

/* The same of a text that is one line. */
int map_line(kept *run);

/* The file ends behind its last line, and is mapped no more. */
void map_ends(kept *run);

/* ---- the crate em_c: each performs what the call of its name performs, and tells its lines */

#define PLACE const uint8_t *name, size_t length, uint32_t line, uint64_t counter

void kept_head(uint32_t profile, uint64_t base, uint64_t memory, uint64_t budget, const uint16_t words[64], kept_text *text);
em_code kept_read(em_machine *machine, uint32_t offset, PLACE, kept_text *text, uint32_t *value);
em_code kept_write(em_machine *machine, uint32_t offset, uint32_t value, PLACE, kept_text *text);
em_code kept_poke(em_machine *machine, uint64_t address, const uint8_t *octets, size_t count, PLACE, kept_text *text);
em_code kept_arrive(em_machine *machine, const uint8_t *frame, size_t count, PLACE, kept_text *text);
em_code kept_set_link(em_machine *machine, bool up, PLACE, kept_text *text);
em_code kept_rx_step(em_machine *machine, PLACE, kept_text *text);
em_code kept_tx_step(em_machine *machine, PLACE, kept_text *text);
em_code kept_back(em_machine *machine, size_t n, PLACE, kept_text *text, size_t *done);

/* ---- and of a capture the header, and the record of a frame that was sent */

void capture_head(kept_text *text);
em_code capture_record(const em_machine *machine, size_t index, uint64_t nanoseconds, kept_text *text);

#endif
