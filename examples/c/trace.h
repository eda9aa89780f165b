/* A driver's own log, as em_trace reads it: its accesses of registers, and what it writes into memory for the adapter.

       trace_memory(stderr, buffer, packet, length);           a packet, before its descriptor
       trace_descriptor(stderr, ring, index, &descriptor);     a descriptor, before the tail that gives it away
       trace_write(stderr, 0x3818, tail);
       trace_read(stderr, 0x00C0, causes);                     once it is read

   Addresses are those that the adapter is given. TRACE_TIME, where it is defined before this is included, is when a line
   is printed, in microseconds: `[   12.345678] ` stands before each line then. In a kernel printk or its like takes the
   place of fprintf, and prints such times itself. docs/traces.md says what is read. */
#ifndef TRACE_H
#define TRACE_H
#include <inttypes.h>
#include <stddef.h>
#include <stdint.h>
#include <stdio.h>

/* so many octets stand in a line at most, and a descriptor has so many */
enum { TRACE_OCTETS = 1024, TRACE_DESCRIPTOR = 16 };

static inline void trace_time(FILE *log) {
#ifdef TRACE_TIME
  const uint64_t trace_at = (TRACE_TIME);
  (void)fprintf(log, "[%5" PRIu64 ".%06" PRIu64 "] ", trace_at / 1000000, trace_at % 1000000);
#else
  (void)log;
#endif
}

static inline void trace_read(FILE *log, uint32_t offset, uint32_t value) {
  trace_time(log);
  (void)fprintf(log, "read 0x%05" PRIX32 " 0x%08" PRIX32 "\n", offset, value);
}

static inline void trace_write(FILE *log, uint32_t offset, uint32_t value) {
  trace_time(log);
  (void)fprintf(log, "write 0x%05" PRIX32 " 0x%08" PRIX32 "\n", offset, value);
}

static inline void trace_memory(FILE *log, uint64_t address, const void *octets, size_t length) {
  const uint8_t *next = (const uint8_t *)octets;
  for (size_t at = 0; at < length; at++) {
    if (at % TRACE_OCTETS == 0) {
      if (at) (void)fputc('\n', log);
      trace_time(log);
      (void)fprintf(log, "mem 0x%" PRIX64 " ", address + at);
    }
    (void)fprintf(log, "%02X", next[at]);
  }
  if (length) (void)fputc('\n', log);
}

static inline void trace_descriptor(FILE *log, uint64_t ring, unsigned index, const void *descriptor) {
  trace_memory(log, ring + TRACE_DESCRIPTOR * (uint64_t)index, descriptor, TRACE_DESCRIPTOR);
}

#endif
