/* Memory that is shared with a thread of the driver's. It takes packets as soon as it sees DD, with no call that tells it
   of them, and gives their buffers back; another thread writes octets of its own beside descriptors and buffers all the
   time. Each packet comes once, and none of these octets is undone. Under ThreadSanitizer with attach.c compiled so, no
   octet that the library touches is raced for.

       beside FRAMES BASE    where memory begins, in hexadecimal; the last line is `N passed, M failed` */
#include "bunjelav.h"

#include <pthread.h>
#include <sched.h>
#include <stdio.h>
#include <stdlib.h>
#include <string.h>

enum { RCTL = 0x0100, RDBAL = 0x2800, RDBAH = 0x2804, RDLEN = 0x2808, RDT = 0x2818, EN_AND_BAM = 0x8002, DD = 1 };
enum { MEMORY = 65536, RING = 0x1000, BUFFERS = 0x4000, COUNT = 8, SIZE = 2048, LENGTH = 200, OWN = 64 };

static uint8_t ram[MEMORY] __attribute__((aligned(4096)));
static em_machine machine = EM_NO_MACHINE;
static pthread_mutex_t lock = PTHREAD_MUTEX_INITIALIZER;
static unsigned frames, taken, wrong, failed;
static bool has_all, is_done;

static void must(uint32_t refusal) {
  if (refusal == EM_OK) return;
  fprintf(stderr, "beside: refused: %u\n", (unsigned)refusal);
  exit(1);
}

static void set(uint32_t offset, uint32_t value) {
  pthread_mutex_lock(&lock);
  must(em_write(&machine, offset, value));
  pthread_mutex_unlock(&lock);
}

static bool is_set(bool *flag) { return __atomic_load_n(flag, __ATOMIC_ACQUIRE); }

/* the descriptor's last 8 octets: the length, and the status behind the checksum */
static uint64_t end_of(unsigned index) {
  return __atomic_load_n((uint64_t *)(void *)(ram + RING + 16 * index + 8), __ATOMIC_ACQUIRE);
}

static void put_buffer(unsigned index, uint64_t address) {
  for (unsigned i = 0; i < 8; i++) ram[RING + 16 * index + i] = (uint8_t)(address >> 8 * i);
}

static void *driver(void *nothing) {
  for (unsigned index = 0; taken < frames; index = (index + 1) % COUNT) {
    unsigned number;
    uint64_t end;
    while (!((end = end_of(index)) >> 32 & DD)) sched_yield();
    memcpy(&number, ram + BUFFERS + SIZE * index + 32, sizeof number);
    if ((end & 0xFFFF) != LENGTH || number != taken) wrong++;
    memset(ram + BUFFERS + SIZE * index, 0, LENGTH);
    __atomic_store_n((uint64_t *)(void *)(ram + RING + 16 * index + 8), 0, __ATOMIC_RELAXED);
    if (++taken % 4 == 0) set(RDT, index);
  }
  __atomic_store_n(&has_all, true, __ATOMIC_RELEASE);
  return nothing;
}

/* Octets behind the ring, and behind what a frame takes of each buffer. */
static void *neighbour(void *nothing) {
  uint8_t *places[COUNT + 1] = {ram + RING + 16 * COUNT};
  for (unsigned i = 0; i < COUNT; i++) places[i + 1] = ram + BUFFERS + SIZE * i + LENGTH;
  for (uint8_t round = 0; !is_set(&is_done); round++) {
    for (unsigned i = 0; i <= COUNT; i++) {
      for (unsigned k = 0; k < OWN; k++) {
        if (places[i][k] != round) failed++;
        places[i][k] = (uint8_t)(round + 1);
      }
    }
    sched_yield();
  }
  return nothing;
}

int main(int count, char **words) {
  const uint64_t base = count > 2 ? strtoull(words[2], NULL, 16) : 0;
  const em_region region = {base, MEMORY, ram};
  const em_ram memory = {NULL, NULL, NULL, &region, 1};
  static const uint8_t mac[6] = {0x52, 0x54, 0x00, 0x12, 0x34, 0x56};
  uint8_t frame[LENGTH] = {0xFF, 0xFF, 0xFF, 0xFF, 0xFF, 0xFF};
  pthread_t threads[2];
  frames = count > 1 ? (unsigned)atoi(words[1]) & ~3u : 1000;
  must(em_make_at(&machine, base, MEMORY, 1048576, mac));
  must(em_attach(&machine, &memory));
  must(em_set_link(&machine, true));
  for (unsigned i = 0; i < COUNT; i++) put_buffer(i, base + BUFFERS + SIZE * i);
  set(RDBAL, (uint32_t)(base + RING)), set(RDBAH, (uint32_t)((base + RING) >> 32));
  set(RDLEN, 16 * COUNT), set(RDT, COUNT - 1), set(RCTL, EN_AND_BAM);
  if (pthread_create(&threads[0], NULL, driver, NULL) || pthread_create(&threads[1], NULL, neighbour, NULL)) return 1;
  for (unsigned number = 0; number < frames;) {
    em_note event;
    size_t steps;
    memcpy(frame + 32, &number, sizeof number);
    pthread_mutex_lock(&lock);
    must(em_arrive(&machine, frame, LENGTH, &event));
    must(em_run_rx(&machine, SIZE_MAX, &steps));
    pthread_mutex_unlock(&lock);
    if (event.kind == EM_STORED) number++;
    else if (event.kind != EM_MISSED) failed++;
    if (number % 8 == 0) sched_yield();
  }
  /* what waits in the FIFO goes where the driver makes room */
  while (!is_set(&has_all)) {
    size_t steps;
    pthread_mutex_lock(&lock);
    must(em_run_rx(&machine, SIZE_MAX, &steps));
    pthread_mutex_unlock(&lock);
    sched_yield();
  }
  pthread_join(threads[0], NULL);
  __atomic_store_n(&is_done, true, __ATOMIC_RELEASE);
  pthread_join(threads[1], NULL);
  failed += wrong + (taken != frames);
  em_free(&machine);
  printf("%u passed, %u failed\n", taken, failed);
  return failed != 0;
}
