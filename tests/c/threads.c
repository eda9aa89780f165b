/* Machines and threads: one machine that goes from thread to thread, one machine for each of several threads, and
   several machines that several threads take under locks, all at the same time. What they give was worked out from the
   manual's tables. `threads ROUNDS FOLDER` makes so many rounds (1,000), and keeps the runs of the machines that have a
   thread of their own in the folder. The last line is `N passed, M failed`. */
#define _POSIX_C_SOURCE 200809L
#include "bunjelav.h"

#include <pthread.h>
#include <stdio.h>
#include <stdlib.h>
#include <string.h>

enum { THREADS = 4, MACHINES = 3, MEMORY = 65536, BUDGET = 65536, LENGTH = 60, RING = 0x1000, BUFFER = 0x4000 };
enum { IMS = 0x00D0, RCTL = 0x0100, RDBAL = 0x2800, RDLEN = 0x2808, RDH = 0x2810, RDT = 0x2818, RAL0 = 0x5400 };
enum { EN_AND_BAM = 0x8002 };

static const uint8_t MAC[6] = {0x52, 0x54, 0x00, 0x12, 0x34, 0x56};
static unsigned rounds = 1000;
static const char *folder;

/* what one thread counted */
struct counts {
  unsigned passed, failed;
};

#define CHECK(counts, condition) \
  ((condition) ? (void)(counts)->passed++ \
               : (void)((counts)->failed++, printf("threads.c:%d: %s\n", __LINE__, #condition)))

/* ---- one machine, handed on: each thread makes its round when it is its turn */

struct baton {
  pthread_mutex_t lock;
  pthread_cond_t passed_on;
  em_machine machine;
  unsigned turn;
};

struct runner {
  struct baton *baton;
  unsigned number;
  struct counts counts;
};

/* The round of a turn: the last thread's write is there, is taken back, and another one is made. */
static void take_turn(struct runner *runner, em_machine *machine, unsigned turn) {
  uint32_t value = 0;
  size_t done = 0;
  CHECK(&runner->counts, em_look(machine, RAL0 + 8, &value) == EM_OK && value == turn);
  CHECK(&runner->counts, em_back(machine, 1, &done) == EM_OK && done == 1);
  CHECK(&runner->counts, em_look(machine, RAL0 + 8, &value) == EM_OK && value == (turn == 0 ? 0 : turn - 1));
  CHECK(&runner->counts, em_write(machine, RAL0 + 8, turn) == EM_OK);
  CHECK(&runner->counts, em_tag(machine, runner->number) == EM_OK);
  CHECK(&runner->counts, em_write(machine, RAL0 + 8, turn + 1) == EM_OK);
}

static void *runs(void *given) {
  struct runner *runner = given;
  struct baton *baton = runner->baton;
  for (unsigned round = 0; round < rounds; round++) {
    unsigned turn = round * THREADS + runner->number;
    pthread_mutex_lock(&baton->lock);
    while (baton->turn != turn) pthread_cond_wait(&baton->passed_on, &baton->lock);
    take_turn(runner, &baton->machine, turn);
    baton->turn++;
    pthread_cond_broadcast(&baton->passed_on);
    pthread_mutex_unlock(&baton->lock);
  }
  return NULL;
}

/* ---- a machine for each thread, made there and freed where it is joined */

struct owner {
  unsigned number;
  em_machine machine;
  struct counts counts;
};

static void receive(em_machine *machine, struct counts *counts, uint8_t octet) {
  uint8_t frame[LENGTH] = {0xFF, 0xFF, 0xFF, 0xFF, 0xFF, 0xFF}, out[LENGTH];
  uint32_t head = 0;
  size_t done = 0;
  em_note note;
  frame[LENGTH - 1] = octet;
  CHECK(counts, em_arrive(machine, frame, LENGTH, &note) == EM_OK && note.kind == EM_STORED);
  CHECK(counts, em_look(machine, RDH, &head) == EM_OK);
  CHECK(counts, em_run_rx(machine, 9, &done) == EM_OK && done == 1);
  CHECK(counts, em_peek(machine, BUFFER + 2048 * head, out, LENGTH) == EM_OK && !memcmp(out, frame, LENGTH));
  CHECK(counts, em_write(machine, RDT, head) == EM_OK);
  if (octet % 4 != 0) return;
  CHECK(counts, em_back(machine, 4, &done) == EM_OK && done == 4);
  CHECK(counts, em_peek(machine, BUFFER + 2048 * head, out, LENGTH) == EM_OK && memcmp(out, frame, LENGTH));
}

/* The runs of half of the threads are kept by a mapping, and of the others by write(2). */
static void keep(struct owner *owner) {
  char path[4000];
  snprintf(path, sizeof path, "%s/%u.em", folder, owner->number);
  em_machine *machine = &owner->machine;
  CHECK(&owner->counts, (owner->number % 2 ? em_record_mapped(machine, path) : em_record_to(machine, path)) == EM_OK);
}

static void *owns(void *given) {
  struct owner *owner = given;
  struct counts *counts = &owner->counts;
  em_machine *machine = &owner->machine;
  uint8_t name[9];
  size_t length;
  int fault;
  CHECK(counts, em_make(machine, MEMORY, BUDGET, MAC) == EM_OK);
  if (folder != NULL) keep(owner);
  CHECK(counts, em_set_link(machine, true) == EM_OK);
  for (unsigned i = 0; i < 8; i++) {
    const uint8_t at[2] = {0, (uint8_t)((BUFFER + 2048 * i) >> 8)};
    CHECK(counts, em_poke(machine, RING + 16 * i, at, sizeof at) == EM_OK);
  }
  CHECK(counts, em_write(machine, RDBAL, RING) == EM_OK && em_write(machine, RDLEN, 128) == EM_OK);
  CHECK(counts, em_write(machine, RDT, 7) == EM_OK && em_write(machine, RCTL, EN_AND_BAM) == EM_OK);
  for (unsigned round = 0; round < rounds; round++) {
    receive(machine, counts, (uint8_t)(owner->number + round));
    CHECK(counts, em_name(RDT, name, sizeof name, &length) == EM_OK && length == 3 && !memcmp(name, "RDT", 3));
  }
  CHECK(counts, em_recording_status(machine, &fault) == (folder != NULL ? EM_OK : EM_UNRECORDED));
  return NULL;
}

/* ---- several machines, each under a lock, that all threads take in turn */

struct shelf {
  pthread_mutex_t locks[MACHINES];
  em_machine machines[MACHINES];
};

struct taker {
  struct shelf *shelf;
  unsigned number;
  struct counts counts;
};

static void *takes(void *given) {
  struct taker *taker = given;
  for (unsigned round = 0; round < rounds; round++) {
    for (unsigned k = 0; k < MACHINES; k++) {
      unsigned it = (taker->number + k) % MACHINES;
      em_machine *machine = &taker->shelf->machines[it];
      uint32_t value = 0;
      pthread_mutex_lock(&taker->shelf->locks[it]);
      CHECK(&taker->counts, em_read(machine, RAL0 + 8, &value) == EM_OK);
      CHECK(&taker->counts, em_write(machine, RAL0 + 8, value + 1) == EM_OK);
      pthread_mutex_unlock(&taker->shelf->locks[it]);
    }
  }
  return NULL;
}

/* ---- all of it at the same time */

static struct counts all;

static void add(struct counts counts) {
  all.passed += counts.passed;
  all.failed += counts.failed;
}

static void start(pthread_t *thread, void *(*work)(void *), void *given) {
  if (pthread_create(thread, NULL, work, given) != 0) exit(2);
}

int main(int words, char **word) {
  static struct baton baton = {PTHREAD_MUTEX_INITIALIZER, PTHREAD_COND_INITIALIZER, EM_NO_MACHINE, 0};
  static struct shelf shelf;
  static struct runner runners[THREADS];
  static struct owner owners[THREADS];
  static struct taker takers[THREADS];
  pthread_t threads[3][THREADS];
  uint32_t value = 0;
  if (words > 1) rounds = (unsigned)strtoul(word[1], NULL, 10);
  if (words > 2) folder = word[2];
  CHECK(&all, em_make(&baton.machine, MEMORY, BUDGET, MAC) == EM_OK);
  CHECK(&all, em_write(&baton.machine, RAL0 + 8, 0) == EM_OK);
  for (unsigned k = 0; k < MACHINES; k++) {
    pthread_mutex_init(&shelf.locks[k], NULL);
    CHECK(&all, em_make(&shelf.machines[k], MEMORY, BUDGET, MAC) == EM_OK);
  }
  for (unsigned i = 0; i < THREADS; i++) {
    runners[i] = (struct runner){&baton, i, {0, 0}};
    takers[i] = (struct taker){&shelf, i, {0, 0}};
    owners[i].number = i;
    start(&threads[0][i], runs, &runners[i]);
    start(&threads[1][i], owns, &owners[i]);
    start(&threads[2][i], takes, &takers[i]);
  }
  for (unsigned i = 0; i < THREADS; i++) {
    for (int kind = 0; kind < 3; kind++) pthread_join(threads[kind][i], NULL);
    add(runners[i].counts);
    add(owners[i].counts);
    add(takers[i].counts);
    em_free(&owners[i].machine); /* (it was made in another thread) */
  }
  CHECK(&all, em_look(&baton.machine, RAL0 + 8, &value) == EM_OK && value == THREADS * rounds);
  em_free(&baton.machine);
  for (unsigned k = 0; k < MACHINES; k++) {
    CHECK(&all, em_look(&shelf.machines[k], RAL0 + 8, &value) == EM_OK && value == THREADS * rounds);
    em_free(&shelf.machines[k]);
  }
  printf("%u passed, %u failed\n", all.passed, all.failed);
  return all.failed != 0;
}
