/* Runs that were not kept, saved from the journal: the lines of a short one, worked out by hand; each refusal; want of
   memory; and random runs of both profiles, which end with what em_debug has to come to. `saved FOLDER RUNS ROUNDS` leaves
   there of each run N its lines as saved-N.em and its registers as saved-N.looks. The last line is `N passed, M failed`. */
#define _POSIX_C_SOURCE 200809L
#include "harness.h"

#include <errno.h>
#include <stdlib.h>

enum { TEXT = 1 << 20, PATH = 4000, VFTA = 0x5600, MTA = 0x5200, LEAST_BUDGET = 65536 };

static const char *folder;
static char path[PATH], there[TEXT];

static const char *named(const char *name) {
  snprintf(path, sizeof path, "%s/%s", folder, name);
  return path;
}

static bool says(const char *wanted) {
  FILE *file = fopen(path, "r");
  size_t length = file ? fread(there, 1, TEXT - 1, file) : 0;
  if (file) fclose(file);
  there[length] = 0;
  bool same = !strcmp(there, wanted);
  if (!same) printf("there: %s\nwanted: %s\n", there, wanted);
  return same;
}

#define HEAD "# em_debug --memory 65536 --budget 1048576 --mac 525400123456\n"

/* ---- a short run */

static void has_each_event(void) {
  em_machine m = made();
  em_note note;
  uint32_t value;
  uint8_t frame[16] = {0x52, 0x54, 0, 0x12, 0x34, 0x56, 2, 0, 0, 0, 0, 1, 0x88, 0xB5, 7, 9};
  OK(em_save(&m, named("short.em")));
  CHECK(says(HEAD));
  OK(em_write(&m, IMS, LSC));
  OK(em_tag(&m, 0x401A));
  OK(em_set_link(&m, true));
  OK(em_set_link(&m, false));
  OK(em_tag(&m, 0));
  OK(em_read(&m, ICR, &value));
  OK(em_poke(&m, 0x1000, MAC, sizeof MAC));
  OK(em_rx_step(&m, &note));
  OK(em_tx_step(&m, &note));
  OK(em_arrive(&m, frame, sizeof frame, &note));
  REFUSED(em_write(&m, 1, 1), EM_NO_REGISTER);
  OK(em_save(&m, path));
  CHECK(says(HEAD "w D0 4 =ok\nlink up =ok @0x401A\nlink down =ok @0x401A\nr C0 =00000004\npoke 1000 525400123456 =ok\n"
             "rx =idle\ntx =idle\narrive FFFFFFFFFFFF00000000000000000000 =dropped down\n"));
  CHECK(reach(&m) == 8);
  em_free(&m);
}

/* Frames that wait, one of them with a tag that was taken out, and frames that are dropped for another reason. */
static void has_its_frames(void) {
  em_machine m = made();
  em_note note;
  uint8_t frame[64] = {0x52, 0x54, 0, 0x12, 0x34, 0x56, 2, 0, 0, 0, 0, 1, 0x81, 0x00, 0x20, 0x05};
  OK(em_set_link(&m, true));
  OK(em_write(&m, RAL0, 0x12005452)), OK(em_write(&m, RAH0, 0x80005634));
  OK(em_write(&m, VET, 0x8100)), OK(em_write(&m, CTRL, CTRL_VME)), OK(em_write(&m, RCTL, RCTL_EN));
  OK(em_arrive(&m, frame, sizeof frame, &note));
  CHECK(note.kind == EM_STORED);
  OK(em_write(&m, VET, 0)), OK(em_write(&m, CTRL, 0));
  frame[0] = 0x50;
  OK(em_arrive(&m, frame, 60, &note));
  CHECK(note.kind == EM_REJECTED);
  frame[0] = 0x52, frame[20] = 0xAB;
  OK(em_arrive(&m, frame, 60, &note));
  CHECK(note.kind == EM_STORED);
  OK(em_save(&m, named("frames.em")));
  char zeros[96 + 1];
  memset(zeros, '0', 96), zeros[96] = 0;
  static char wanted[1024];
  snprintf(wanted, sizeof wanted, HEAD "link up =ok\nw 5400 12005452 =ok\nw 5404 80005634 =ok\nw 38 8100 =ok\n"
           "w 0 40000000 =ok\nw 100 2 =ok\narrive 52540012345602000000000181002005%.96s =stored\nw 38 0 =ok\nw 0 0 =ok\n"
           "arrive FFFFFFFFFFFF%.96s%.12s =dropped rejected\n"
           "arrive 52540012345602000000000181002005%.8sAB%.78s =stored\n", zeros, zeros, zeros, zeros, zeros);
  CHECK(says(wanted));
  em_free(&m);
}

/* ---- what is refused */

static void refuses_what_it_lacks(void) {
  em_machine m = EM_NO_MACHINE;
  uint32_t value;
  size_t done;
  REFUSED(em_save(&m, named("none.em")), EM_NOT_MADE);
  CHECK(fopen(path, "r") == NULL);
  /* the least budget holds no event of which it is certain that none came before */
  OK(em_make(&m, MEMORY, LEAST_BUDGET, MAC));
  OK(em_save(&m, path));
  OK(em_read(&m, STATUS, &value));
  REFUSED(em_save(&m, path), EM_BEGUN);
  em_free(&m);
  /* so many events of 32 have room */
  OK(em_make(&m, MEMORY, LEAST_BUDGET + 100 * 32, MAC));
  for (int i = 0; i < 100; i++) OK(em_write(&m, IMS, 1));
  OK(em_save(&m, path));
  OK(em_write(&m, IMS, 1));
  REFUSED(em_save(&m, path), EM_BEGUN);
  em_free(&m);
  /* what was taken back may have driven others out */
  m = made();
  OK(em_write(&m, IMS, 1));
  OK(em_back(&m, 1, &done));
  REFUSED(em_save(&m, path), EM_BEGUN);
  em_free(&m);
  m = made();
  errno = 0;
  REFUSED(em_save(&m, "/nowhere/saved.em"), EM_FILE);
  CHECK(errno == ENOENT);
  REFUSED(em_save(&m, "/dev/full"), EM_FILE);
  CHECK(errno == ENOSPC);
  OK(em_save(&m, path));
  CHECK(says(HEAD));
  em_free(&m);
}

/* Each request for memory is refused in turn: nothing is left of it then. */
static void wants_memory(void) {
  em_machine m = made();
  em_note note;
  uint8_t frame[60];
  fill(frame, sizeof frame);
  set_receiving(&m);
  for (int i = 0; i < 3; i++) OK(em_arrive(&m, frame, sizeof frame, &note));
  OK(em_arrive(&m, frame, 40, &note));
  const long out = blocks;
  unsigned refusals = 0;
  for (long n = 0; ; n++) {
    granted = n, once = true;
    em_code why = em_save(&m, named("starved.em"));
    bool is_over = granted >= 0; /* (none was left to refuse) */
    granted = -1;
    CHECK(blocks == out);
    if (is_over) {
      CHECK(why == EM_OK);
      break;
    }
    MUST(why == EM_MEMORY || why == EM_OK);
    refusals += why == EM_MEMORY;
  }
  CHECK(refusals > 4);
  em_free(&m);
}

/* ---- random runs */

static uint64_t state;

static uint32_t draw(uint32_t below) {
  state ^= state << 13, state ^= state >> 7, state ^= state << 17;
  return (uint32_t)(state >> 33) % below;
}

static void draw_frame(uint8_t *frame, size_t length) {
  for (size_t i = 0; i < length; i++) frame[i] = (uint8_t)draw(256);
  switch (draw(4)) {
    case 0: memset(frame, 0xFF, 6); break;
    case 1: memcpy(frame, MAC, 6); break;
    case 2: frame[0] |= 1; break;
    default: frame[0] &= 0xFE;
  }
  if (draw(2)) frame[12] = 0x81, frame[13] = 0, frame[14] = 0;
}

static uint32_t value_for(uint32_t offset) {
  const uint32_t any = draw(4) ? draw(64) : draw(UINT32_C(1) << 31);
  switch (offset) {
    case CTRL: return draw(4) ? CTRL_VME * draw(2) : draw(2) ? (uint32_t)RST : any;
    case RCTL: return (draw(8) ? RCTL_EN : 0) | draw(2) << 3 | draw(2) << 4 | draw(2) << 15 | draw(2) << 18 | draw(2) << 5
      | draw(4) << 12 | draw(4) << 16;
    case VET: return draw(2) ? 0x8100 : 0;
    case RDLEN:
    case TDLEN: return 16 * DESCRIPTORS;
    default: return any;
  }
}

static void draw_event(em_machine *m, uint64_t base) {
  static const uint32_t offsets[] = {CTRL, ICR, IMS, RCTL, TCTL, RDT, RDH, TDT, EERD, STATUS, VET, RDLEN, TDLEN,
                                     MTA, MTA + 4, VFTA, RAL0, RAH0, RAL0 + 8, RAH0 + 8};
  static uint8_t frame[9000];
  const uint32_t offset = offsets[draw(sizeof offsets / sizeof *offsets)], kind = draw(16);
  uint32_t value;
  size_t done, length = draw(10) == 0 ? draw(sizeof frame) : draw(4) ? 60 + draw(140) : draw(64);
  em_note note;
  em_code why = EM_OK;
  MUST(em_tag(m, draw(2) ? 0 : draw(UINT32_C(1) << 31)) == EM_OK);
  if (kind < 3) why = em_read(m, offset, &value);
  else if (kind < 6) why = em_write(m, offset, value_for(offset));
  else if (kind == 6) {
    uint8_t octets[16] = {0};
    for (int i = 0; i < 8; i++) octets[i] = (uint8_t)((base + BUFFER + 0x800 * draw(1)) >> 8 * i);
    octets[8] = (uint8_t)draw(200), octets[11] = (uint8_t)draw(16);
    why = em_poke(m, base + (draw(2) ? RX_RING : TX_RING) + 16 * draw(DESCRIPTORS), octets, sizeof octets);
  } else if (kind < 11) draw_frame(frame, length), why = em_arrive(m, frame, length, &note);
  else if (kind == 11) why = em_rx_step(m, &note);
  else if (kind == 12) why = em_tx_step(m, &note);
  else if (kind == 13) why = em_run_rx(m, 4, &done);
  else if (kind == 14) why = em_set_link(m, draw(8) != 0);
  else why = em_write(m, draw(2) ? RDBAL : TDBAL, (uint32_t)base + (draw(2) ? RX_RING : TX_RING));
  (void)why; /* (some are refused, and leave no line) */
}

static void leave_registers(const em_machine *m, const char *name) {
  static em_register all[EM_REGISTERS];
  size_t count = 0;
  FILE *file = fopen(named(name), "w");
  OK(em_registers(m, all, EM_REGISTERS, &count));
  for (size_t i = 0; i < count; i++) fprintf(file, "%05X %08X\n", all[i].offset, all[i].value);
  fclose(file);
}

static void saves_at_random(unsigned number, unsigned rounds) {
  em_machine m = EM_NO_MACHINE;
  char name[64];
  const uint64_t base = number % 2 ? 0x180000000 : 0;
  state = 88172645463325252u + number * 7919u;
  OK(em_make_as(&m, number % 4 < 2 ? EM_PROFILE_TABLE : EM_PROFILE_ADAPTER, base, MEMORY, BUDGET, MAC));
  OK(em_write(&m, 0x2804, (uint32_t)(base >> 32))), OK(em_write(&m, 0x3804, (uint32_t)(base >> 32)));
  for (unsigned i = 0; i < rounds; i++) draw_event(&m, base);
  snprintf(name, sizeof name, "saved-%u.em", number);
  OK(em_save(&m, named(name)));
  snprintf(name, sizeof name, "saved-%u.looks", number);
  leave_registers(&m, name);
  em_free(&m);
}

int main(int words, char **word) {
  if (words < 4) return 1;
  folder = word[1];
  has_each_event();
  has_its_frames();
  refuses_what_it_lacks();
  wants_memory();
  for (int i = 0; i < atoi(word[2]); i++) saves_at_random((unsigned)i, (unsigned)atoi(word[3]));
  return tell_counts();
}
