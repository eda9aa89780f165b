/* The board in C: registers and memory over a socket to the tests, by lines of text. */
#include "line.h"
#include "nic.h"

#include <inttypes.h>
#include <stdio.h>
#include <stdlib.h>
#include <string.h>
#include <sys/mman.h>
#include <unistd.h>

static int connection;
static uint8_t *memory;
static uint64_t memory_base, memory_size;

/* Opens what the tests hand over: `program CONNECTION MEMORY BASE SIZE`. */
void board_open(char **words) {
  connection = atoi(words[1]);
  memory_base = strtoull(words[3], NULL, 10);
  memory_size = strtoull(words[4], NULL, 10);
  memory = mmap(NULL, memory_size, PROT_READ | PROT_WRITE, MAP_SHARED, atoi(words[2]), 0);
  if (memory == MAP_FAILED) {
    perror("nic.c: memory");
    exit(1);
  }
}

/* Ends the program where the tests are gone. */
static void gone(void) { exit(0); }

void line_say(const char *text) {
  for (size_t left = strlen(text); left > 0;) {
    ssize_t done = write(connection, text, left);
    if (done <= 0) gone();
    text += done;
    left -= (size_t)done;
  }
}

char *line_next(void) {
  static char room[LINE_MOST];
  static size_t held, used;
  memmove(room, room + used, held -= used);
  for (;;) {
    char *end = memchr(room, '\n', held);
    if (end) {
      *end = 0;
      used = (size_t)(end - room) + 1;
      return room;
    }
    ssize_t done = read(connection, room + held, sizeof room - held);
    if (done <= 0) gone();
    held += (size_t)done;
  }
}

static const char *last_name(const char *file) {
  const char *slash = strrchr(file, '/');
  return slash ? slash + 1 : file;
}

uint32_t nic_read_from(uint32_t offset, const char *file, int line) {
  char text[LINE_SHORT];
  snprintf(text, sizeof text, "r %" PRIx32 " %s:%d\n", offset, last_name(file), line);
  line_say(text);
  return (uint32_t)strtoul(line_next(), NULL, 16);
}

void nic_write_from(uint32_t offset, uint32_t value, const char *file, int line) {
  char text[LINE_SHORT];
  snprintf(text, sizeof text, "w %" PRIx32 " %" PRIx32 " %s:%d\n", offset, value, last_name(file), line);
  line_say(text);
  line_next();
}

void *nic_memory(uint64_t address) { return memory + (address - memory_base); }

uint64_t nic_address(const void *pointer) { return memory_base + (uint64_t)((const uint8_t *)pointer - memory); }
