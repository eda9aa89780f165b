/* Machines as octets: each octet of the form by hand, each refusal; a machine that was loaded goes on as the first one does;
   octets that are cut, and octets that were changed and have their check sum again. `stored N` makes so many changes
   (100,000). The last line is `N passed, M failed`. */
#include "harness.h"

#include <stdlib.h>

/* BUNJELAV and the version; how many frames were handed over; the single numbers, the words of PHY and EEPROM, the
   registers, and the latches: all words; and behind a machine its length and the sum */
enum { FRONT = 12, NUMBERS = 20, PHY = 32, EEPROM = 64, STORED = 327, LATCHES = 34, BACK = 12 };
enum { LISTS = NUMBERS + 4 * (11 + PHY + EEPROM + STORED + LATCHES), ROOM = 1 << 20, PAGE = 4096 };
enum { EECD = 0x10, MDIC = 0x20, TX_BUFFER = 0x8000, TX_DATA = 0x9000 };

static uint8_t octets[ROOM], others[ROOM], told[ROOM], frame[16384];

/* ---- numbers, and the check sum */

static uint64_t number_at(const uint8_t *from, int count) {
  uint64_t number = 0;
  for (int i = count; i-- > 0;) number = number << 8 | from[i];
  return number;
}

static void put_number(uint8_t *to, uint64_t number, int count) {
  for (int i = 0; i < count; i++) to[i] = (uint8_t)(number >> 8 * i);
}

/* CRC-32 of eight bits at once, each by the definition: the reversed polynomial where a one falls out */
static uint32_t sum_of(const uint8_t *from, size_t length) {
  static uint32_t table[256];
  uint32_t sum = UINT32_MAX;
  for (uint32_t i = 0; table[255] == 0 && i < 256; i++) {
    table[i] = i;
    for (int bit = 0; bit < 8; bit++) table[i] = table[i] >> 1 ^ (table[i] & 1 ? UINT32_C(0xEDB88320) : 0);
  }
  for (size_t i = 0; i < length; i++) sum = sum >> 8 ^ table[(sum ^ from[i]) & 0xFF];
  return ~sum;
}

/* the length and the sum that these octets are to have */
static void seal(uint8_t *of, size_t length) {
  put_number(of + length - BACK, length, 8);
  put_number(of + length - 4, sum_of(of, length - 4), 4);
}

static size_t stored(const em_machine *machine, uint8_t *out) {
  size_t length = 0;
  OK(em_store(machine, out, ROOM, &length));
  return length;
}

/* why these octets are refused before they are read, by the table of docs/library.md */
static em_code fault_of(const uint8_t *of, size_t length) {
  if (length < 8 || memcmp(of, "BUNJELAV", 8)) return EM_STORED_MAGIC;
  if (length < FRONT || number_at(of + 8, 4) != 1) return EM_STORED_VERSION;
  if (length < FRONT + BACK || number_at(of + length - BACK, 8) != length) return EM_STORED_LENGTH;
  return number_at(of + length - 4, 4) == sum_of(of, length - 4) ? EM_OK : EM_STORED_SUM;
}

/* ---- random events: the one of a number is the same each time */

static uint64_t seed;

static void ignored(em_code code) { (void)code; }

static uint32_t below(uint32_t n) {
  seed = seed * UINT64_C(6364136223846793005) + UINT64_C(1442695040888963407);
  return (uint32_t)(seed >> 33) % n;
}

struct came {
  em_code code;
  em_note note;
  uint32_t value;
};

static em_code accesses(em_machine *machine, struct came *came) {
  static const uint32_t offsets[] = {CTRL, STATUS, EECD, EERD, MDIC, ICR, IMS, RCTL, TCTL, RDT, TDT, RDH, VET, RAL0, 0x4000,
                                     0x4074, 0x40D4, 0x5200};
  const uint32_t offset = offsets[below(sizeof offsets / sizeof *offsets)];
  uint32_t value = below(3) ? below(256) : below(UINT32_C(1) << 31);
  if (below(3) == 0) return em_read(machine, offset, &came->value);
  if (offset == RCTL) value = RCTL_EN | RCTL_UPE | RCTL_BAM | below(4) << 16;
  if (offset == TCTL) value = TCTL_EN | (below(8) ? 0 : 8);
  if (offset == RDT || offset == TDT || offset == RDH) value = below(DESCRIPTORS);
  if (offset == CTRL) value = below(20) ? (below(2) ? CTRL_VME : 0) : RST;
  if (offset == EERD) value = below(EEPROM) << 8 | 1;
  if (offset == EECD) value = 0x40 | below(8);
  if (offset == MDIC) value = (1 + below(2)) << 26 | 1 << 21 | below(32) << 16 | below(65536);
  return em_write(machine, offset, value);
}

static em_code arrives(em_machine *machine, struct came *came) {
  const size_t length = 60 + below(1400);
  fill(frame, length);
  frame[20] = (uint8_t)below(256);
  if (below(3) == 0) frame[12] = 0x81, frame[13] = 0, frame[15] = (uint8_t)below(256);
  return em_arrive(machine, frame, length, &came->note);
}

static em_code pokes(em_machine *machine, uint64_t base) {
  uint8_t descriptor[16] = {0};
  const unsigned index = below(DESCRIPTORS);
  const bool sends = below(2);
  const uint64_t buffer = base + (sends ? TX_BUFFER : BUFFER) + 0x400 * index;
  if (below(4) == 0) return em_poke(machine, base + TX_DATA + below(2000), frame, 1 + below(300));
  put_number(descriptor, buffer, 8);
  put_number(descriptor + 8, 30 + below(900), 2);
  descriptor[11] = (uint8_t)((below(3) ? EOP : 0) | (below(2) ? RS : 0) | (below(40) ? 0 : DEXT));
  return em_poke(machine, base + (sends ? TX_RING : RX_RING) + 16 * index, descriptor, sizeof descriptor);
}

static struct came perform(em_machine *machine, uint64_t base, uint32_t number) {
  struct came came = {EM_OK, {0, 0, 0, 0, 0, 0, 0}, 0};
  seed = number * UINT64_C(2654435761) + 1;
  below(2);
  switch (below(12)) {
    case 0:
    case 1:
    case 2: came.code = accesses(machine, &came); break;
    case 3:
    case 4: came.code = pokes(machine, base); break;
    case 5:
    case 6: came.code = arrives(machine, &came); break;
    case 7:
    case 8: came.code = em_rx_step(machine, &came.note); break;
    case 9:
    case 10: came.code = em_tx_step(machine, &came.note); break;
    default: came.code = em_set_link(machine, below(10) != 0);
  }
  return came;
}

static em_machine prepared(uint32_t profile, uint64_t base, uint64_t budget) {
  em_machine machine = EM_NO_MACHINE;
  OK(em_make_as(&machine, profile, base, MEMORY, budget, MAC));
  OK(em_set_link(&machine, true));
  for (uint32_t i = 0; i < 2; i++) {
    const uint32_t ring = i ? TDBAL : RDBAL;
    OK(em_write(&machine, ring, (uint32_t)base + (i ? TX_RING : RX_RING)));
    OK(em_write(&machine, ring + 4, (uint32_t)(base >> 32)));
    OK(em_write(&machine, ring + 8, 16 * DESCRIPTORS));
    OK(em_write(&machine, ring + 0x18, 7));
    for (unsigned k = 0; k < DESCRIPTORS; k++) {
      put_descriptor(&machine, base + (i ? TX_RING : RX_RING) + 16 * k, base + (i ? TX_BUFFER : BUFFER) + 0x400 * k, 300,
                     k % 3 ? EOP | RS : 0);
    }
  }
  OK(em_write(&machine, RCTL, RCTL_EN | RCTL_UPE | RCTL_BAM));
  OK(em_write(&machine, TCTL, TCTL_EN));
  return machine;
}

/* ---- the form */

/* a new machine: all is worked out from the table of the form, and from what registers are after a reset */
static void has_the_form_of_a_new_machine(void) {
  em_machine machine = EM_NO_MACHINE;
  OK(em_make_as(&machine, EM_PROFILE_ADAPTER, 3 * PAGE, 2 * PAGE, BUDGET, MAC));
  OK(em_poke(&machine, 4 * PAGE + 5, MAC, 6));
  const size_t length = stored(&machine, octets);
  const uint32_t single[11] = {1, BUDGET, 3, 2, 0, 0, 0, 0x10, 0, 0, 0};
  CHECK(length == LISTS + 24 + 1 + 1 + PAGE + BACK);
  CHECK(!memcmp(octets, "BUNJELAV\1\0\0\0\0\0\0\0\0\0\0", NUMBERS));
  for (int i = 0; i < 11; i++) CHECK(number_at(octets + NUMBERS + 4 * i, 4) == single[i]);
  const uint8_t *eeprom = octets + NUMBERS + 4 * (11 + PHY);
  CHECK(number_at(eeprom, 4) == 0x5452 && number_at(eeprom + 4, 4) == 0x1200 && number_at(eeprom + 8, 4) == 0x5634);
  for (int i = 0; i < 25; i++) CHECK(octets[LISTS + i] == 0); /* no octets, no frames, and a page of zeros */
  const uint8_t *page = octets + LISTS + 25;
  CHECK(page[0] == 1 && !memcmp(page + 1 + 5, MAC, 6) && page[1 + 4] == 0 && page[1 + 11] == 0);
  CHECK(number_at(page + 1 + PAGE, 8) == length && number_at(page + 1 + PAGE + 8, 4) == sum_of(octets, length - 4));
  em_free(&machine);
}

/* a frame that waits, with the tag that was taken out; one that was sent, and handed over; and octets that are gathered */
static void has_the_form_of_frames(void) {
  em_machine machine = prepared(EM_PROFILE_TABLE, 0, BUDGET);
  em_note event;
  uint8_t sent[300];
  size_t n;
  memset(sent, 7, sizeof sent);
  OK(em_poke(&machine, TX_BUFFER, sent, sizeof sent));
  OK(em_write(&machine, VET, 0x8100));
  OK(em_write(&machine, CTRL, CTRL_VME));
  put_descriptor(&machine, TX_RING, TX_BUFFER, 300, EOP | RS);
  put_descriptor(&machine, TX_RING + 16, TX_BUFFER, 40, 0);
  OK(em_tx_step(&machine, &event));
  OK(em_tx_step(&machine, &event));
  OK(em_wire_next(&machine, told, ROOM, &n));
  CHECK(n == 300 && event.kind == EM_FETCHED);
  OK(em_write(&machine, RCTL, RCTL_EN | RCTL_UPE | RCTL_BAM));
  fill(frame, 104);
  memcpy(frame + 12, "\x81\x00\x01\x23", 4);
  OK(em_arrive(&machine, frame, 104, &event));
  CHECK(event.kind == EM_STORED);
  stored(&machine, octets);
  CHECK(number_at(octets + FRONT, 8) == 1);
  const uint8_t *at = octets + LISTS;
  CHECK(number_at(at, 8) == 40 && !memcmp(at + 8, sent, 40));
  at += 8 + 40;
  CHECK(number_at(at, 8) == 1 && number_at(at + 8, 4) == 0x0123 && number_at(at + 12, 8) == 100);
  CHECK(!memcmp(at + 20, frame, 12) && !memcmp(at + 32, frame + 16, 88));
  at += 20 + 100;
  CHECK(number_at(at, 8) == 1 && number_at(at + 8, 8) == 300 && !memcmp(at + 16, sent, 300));
  at += 16 + 300;
  CHECK(at[0] == 0 && at[1] == 1 && number_at(at + 2, 8) == BUFFER);
  em_free(&machine);
}

/* ---- room, and each refusal */

static void tells_how_much_it_needs(void) {
  em_machine machine = EM_NO_MACHINE;
  size_t length = 7, n = 7;
  memset(told, 9, sizeof told);
  REFUSED(em_store(&machine, told, ROOM, &length), EM_NOT_MADE);
  CHECK(length == 7 && told[0] == 9);
  machine = prepared(EM_PROFILE_TABLE, 0, BUDGET);
  const size_t events = reach(&machine);
  REFUSED(em_store(&machine, told, 0, &length), EM_ROOM);
  CHECK(length == LISTS + 24 + MEMORY / PAGE + 2 * PAGE + BACK && told[0] == 9); /* two pages have rings */
  REFUSED(em_store(&machine, told, length - 1, &n), EM_ROOM);
  CHECK(n == length && told[0] == 9);
  OK(em_store(&machine, told, length, &n));
  CHECK(n == length && told[length] == 9 && !memcmp(told, "BUNJELAV", 8));
  CHECK(reach(&machine) == events); /* it is a look */
  em_free(&machine);
  CHECK(blocks == 0);
}

static void is_refused(const uint8_t *of, size_t length, em_code why) {
  em_machine machine = EM_NO_MACHINE;
  const long held = blocks;
  REFUSED(em_load(&machine, of, length), why);
  CHECK(!machine.made && machine.state == 0 && blocks == held);
}

/* of these octets another one at a place, under its sum */
static void is_no_value(size_t length, size_t at, uint8_t octet) {
  memcpy(others, octets, length);
  CHECK(others[at] != octet);
  others[at] = octet;
  seal(others, length);
  is_refused(others, length, EM_STORED_VALUE);
}

static void refuses_octets(void) {
  em_machine machine = prepared(EM_PROFILE_ADAPTER, 0, BUDGET);
  em_note event;
  fill(frame, 600);
  OK(em_arrive(&machine, frame, 600, &event));
  const size_t length = stored(&machine, octets);
  REFUSED(em_load(&machine, octets, length), EM_MADE_ALREADY);
  REFUSED(em_load(&machine, octets, 0), EM_MADE_ALREADY);
  CHECK(stored(&machine, others) == length && !memcmp(octets, others, length));
  em_free(&machine);
  is_refused(octets, 0, EM_STORED_MAGIC);
  for (size_t at = 0; at < length; at += at < 40 ? 1 : 97) {
    memcpy(others, octets, length);
    others[at] ^= 1;
    is_refused(others, length, at < 8 ? EM_STORED_MAGIC : at < FRONT ? EM_STORED_VERSION : EM_STORED_SUM);
  }
  memcpy(others, octets, length);
  others[length - BACK] ^= 1;
  is_refused(others, length, EM_STORED_LENGTH);
  memcpy(others, octets, length);
  others[length - 1] ^= 1;
  is_refused(others, length, EM_STORED_SUM);
  others[length] = 0;
  is_refused(others, length + 1, EM_STORED_LENGTH);
  /* a frame that was not sent was handed over; a profile 2; no budget; no memory; a link of 2; more octets of the first frame
     in memory than it has; a pin that there is not; a word of the PHY with 17 bits */
  is_no_value(length, FRONT, 1);
  is_no_value(length, NUMBERS, 2);
  is_no_value(length, NUMBERS + 6, 0);
  is_no_value(length, NUMBERS + 12, 0);
  is_no_value(length, NUMBERS + 16, 2);
  is_no_value(length, NUMBERS + 21, 3);
  is_no_value(length, NUMBERS + 28, 0x90);
  is_no_value(length, NUMBERS + 46, 1);
  is_no_value(length, LISTS, 1); /* one gathered octet, which takes the next count's first */
  is_no_value(length, LISTS + 8, 2);
  OK(em_load(&machine, octets, length));
  em_free(&machine);
  CHECK(blocks == 0);
}

/* what is cut after each octet, and what more stands behind */
static void refuses_what_is_cut(void) {
  em_machine machine = prepared(EM_PROFILE_TABLE, 0, 65536);
  const size_t length = stored(&machine, octets);
  em_free(&machine);
  for (size_t end = 0; end < length; end++) {
    uint8_t *cut = malloc(end + 1); /* (so that a sanitizer sees a read behind the end) */
    memcpy(cut + 1, octets, end);
    MUST(fault_of(cut + 1, end) != EM_OK && em_load(&machine, cut + 1, end) == fault_of(cut + 1, end) && !machine.made);
    free(cut);
  }
  CHECK(blocks == 0);
}

/* no line makes what a loaded machine begins with */
static void keeps_no_run(void) {
  em_machine machine = made(), copy = EM_NO_MACHINE;
  size_t length = stored(&machine, octets), n;
  em_free(&machine);
  OK(em_load(&machine, octets, length));
  REFUSED(em_record_to(&machine, "/dev/null"), EM_BEGUN);
  REFUSED(em_record_mapped(&machine, "/dev/null"), EM_BEGUN);
  REFUSED(em_save(&machine, "/dev/null"), EM_BEGUN);
  OK(em_write(&machine, IMS, 1));
  OK(em_back(&machine, 5, &n));
  CHECK(n == 1);
  REFUSED(em_record_to(&machine, "/dev/null"), EM_BEGUN);
  OK(em_copy(&machine, &copy));
  REFUSED(em_save(&copy, "/dev/null"), EM_BEGUN);
  em_free(&copy);
  em_free(&machine);
  /* in the same handle a new machine begins anew */
  machine = made();
  OK(em_save(&machine, "/dev/null"));
  em_free(&machine);
  CHECK(blocks == 0);
}

/* ---- a loaded machine */

static bool is_stored_as(const em_machine *machine, const uint8_t *wanted, size_t length) {
  return stored(machine, told) == length && !memcmp(told, wanted, length);
}

static bool is_same(const struct came *a, const struct came *b) {
  return a->code == b->code && a->value == b->value && a->note.at == b->note.at && a->note.length == b->note.length
    && a->note.value == b->note.value && a->note.kind == b->note.kind && a->note.octets == b->note.octets
    && a->note.buffer == b->note.buffer;
}

/* what calls tell of both is the same */
static void show_the_same(const em_machine *one, const em_machine *other) {
  static em_register registers[2][EM_REGISTERS];
  static uint8_t memory[2][MEMORY];
  uint64_t bases[2];
  uint32_t profiles[2], lines[2];
  size_t counts[2], lengths[2];
  const em_machine *both[2] = {one, other};
  em_fifo_state fifos[2];
  memset(fifos, 0, sizeof fifos);
  for (int i = 0; i < 2; i++) {
    OK(em_registers(both[i], registers[i], EM_REGISTERS, &counts[i]));
    OK(em_memory_base(both[i], &bases[i]));
    OK(em_peek(both[i], bases[i], memory[i], MEMORY));
    OK(em_profile(both[i], &profiles[i]));
    OK(em_line(both[i], &lines[i]));
    OK(em_fifo(both[i], &fifos[i]));
  }
  CHECK(counts[0] == counts[1] && !memcmp(registers[0], registers[1], counts[0] * sizeof **registers));
  CHECK(bases[0] == bases[1] && !memcmp(memory[0], memory[1], MEMORY) && profiles[0] == profiles[1]);
  CHECK(lines[0] == lines[1] && fifos[0].frames == fifos[1].frames && fifos[0].octets == fifos[1].octets);
  CHECK(fifos[0].gathered == fifos[1].gathered && fifos[0].tagged == fifos[1].tagged && fifos[0].tag == fifos[1].tag);
  for (int i = 0; i < 2; i++) OK(em_wire_count(both[i], &counts[i]));
  CHECK(counts[0] == counts[1]);
  for (size_t k = 0; k < counts[0]; k++) {
    for (int i = 0; i < 2; i++) MUST(em_wire_frame(both[i], k, memory[i], MEMORY, &lengths[i]) == EM_OK);
    MUST(lengths[0] == lengths[1] && !memcmp(memory[0], memory[1], lengths[0]));
  }
}

/* the frames that were not handed over come from both, in their order */
static void hand_over_the_same(em_machine *one, em_machine *other) {
  static uint8_t frames[2][EM_MOST_SENT];
  size_t lengths[2] = {0, 0};
  em_code codes[2];
  do {
    codes[0] = em_wire_next(one, frames[0], EM_MOST_SENT, &lengths[0]);
    codes[1] = em_wire_next(other, frames[1], EM_MOST_SENT, &lengths[1]);
    CHECK(codes[0] == codes[1] && lengths[0] == lengths[1] && !memcmp(frames[0], frames[1], lengths[0]));
  } while (codes[0] == EM_OK && codes[1] == EM_OK);
  CHECK(codes[0] == EM_NO_FRAME);
}

/* A run that is stored in its middle, and loaded: both go on alike, and back to there. */
static void goes_on(uint32_t profile, uint64_t base, uint32_t round) {
  enum { BEFORE = 400, BEHIND = 300 };
  em_machine first = prepared(profile, base, 4 << 20), second = EM_NO_MACHINE;
  const uint32_t from = round * 1000, at = from + (round * 37) % BEFORE;
  size_t n, done, length;
  em_note note;
  for (uint32_t number = from; number < at; number++) {
    MUST(perform(&first, base, number).code != EM_NOT_MADE);
    if (number % 29 == 3) ignored(em_wire_next(&first, told, ROOM, &n));
  }
  if (round % 4 == 3) OK(em_let_go(&first, &n));
  OK(em_tag(&first, 5));
  length = stored(&first, octets);
  OK(em_load(&second, octets, length));
  CHECK(is_stored_as(&second, octets, length) && reach(&second) == 0);
  REFUSED(em_event(&second, 0, &note), EM_NO_EVENT);
  OK(em_back(&second, 1, &n));
  CHECK(n == 0);
  show_the_same(&first, &second);
  const size_t before = reach(&first);
  for (uint32_t number = at; number < at + BEHIND; number++) {
    const struct came one = perform(&first, base, number), other = perform(&second, base, number);
    MUST(is_same(&one, &other));
  }
  OK(em_event(&second, 0, &note));
  CHECK(note.tag == 0);
  show_the_same(&first, &second);
  n = stored(&first, others);
  CHECK(is_stored_as(&second, others, n));
  OK(em_back(&second, SIZE_MAX, &n));
  CHECK(n > BEHIND / 2 && is_stored_as(&second, octets, length));
  CHECK(reach(&first) == before + n);
  OK(em_back(&first, n, &done));
  CHECK(done == n && is_stored_as(&first, octets, length));
  show_the_same(&first, &second);
  hand_over_the_same(&first, &second);
  em_free(&first);
  em_free(&second);
}

/* the memory that is attached stays the caller's: what the machine has seen of it is stored */
static void stores_nothing_that_is_attached(void) {
  static uint8_t ram[MEMORY];
  static const em_region whole = {0, MEMORY, ram};
  const em_ram memory = {NULL, NULL, NULL, &whole, 1};
  em_machine machine = made(), loaded = EM_NO_MACHINE;
  OK(em_attach(&machine, &memory));
  OK(em_poke(&machine, BUFFER, MAC, 6));
  ram[BUFFER + 8] = 8;
  const size_t length = stored(&machine, octets);
  OK(em_load(&loaded, octets, length));
  OK(em_peek(&loaded, BUFFER, told, 9));
  CHECK(!memcmp(told, MAC, 6) && told[8] == 0);
  OK(em_poke(&loaded, BUFFER, (const uint8_t *)"other", 5));
  CHECK(!memcmp(ram + BUFFER, MAC, 6));
  OK(em_attach(&loaded, &memory));
  OK(em_poke(&loaded, BUFFER, (const uint8_t *)"other", 5));
  CHECK(!memcmp(ram + BUFFER, "other", 5));
  em_free(&loaded);
  em_free(&machine);
  CHECK(blocks == 0);
}

/* ---- octets that were changed, under their length and their sum */

static size_t change(size_t length) {
  size_t at = FRONT + below((uint32_t)length - FRONT - BACK), count = 1 + below(20);
  if (below(3) == 0) at = FRONT + below(200); /* the single numbers are few */
  switch (below(5)) {
    case 0:
      for (; count > 0; count--) others[FRONT + below((uint32_t)length - FRONT - BACK)] = (uint8_t)below(256);
      return length;
    case 1:
      if (at + count > length - BACK) return length;
      memmove(others + at, others + at + count, length - at - count);
      return length - count;
    case 2:
      memmove(others + at + count, others + at, length - at);
      return length + count;
    case 3: others[at] ^= (uint8_t)(1 << below(8)); return length;
    default: others[at] = (uint8_t)(below(2) ? below(256) : below(4)); return length;
  }
}

/* A machine of few octets that has some of each: a frame that was sent, gathered octets, two frames that wait, of which the
   first is half received and the second has a tag, a command of the PHY, and half a command at the EEPROM's pins. */
static em_machine small(void) {
  enum { RX = 0, TX = 0x100, FROM = 0x300, TO = 0x800 };
  static const uint32_t writes[][2] = {
    {RDBAL, RX}, {RDLEN, 128}, {RDT, 7}, {TDBAL, TX}, {TDLEN, 128}, {TCTL, TCTL_EN}, {TDT, 2}, {VET, 0x8100},
    {RCTL, RCTL_EN | RCTL_UPE | RCTL_BAM | 3 << 16}, {MDIC, 0x08220000}, {EECD, 0x42}, {EECD, 0x43}, {EECD, 0x42}, {EECD, 0x47}
  };
  em_machine machine = EM_NO_MACHINE;
  em_note event;
  OK(em_make_as(&machine, EM_PROFILE_ADAPTER, 0, 2 * PAGE, 65536, MAC));
  OK(em_set_link(&machine, true));
  for (unsigned k = 0; k < DESCRIPTORS; k++) put_descriptor(&machine, RX + 16 * k, TO, 0, 0);
  put_descriptor(&machine, TX, FROM, 80, EOP | RS);
  put_descriptor(&machine, TX + 16, FROM, 40, 0);
  for (size_t i = 0; i < sizeof writes / sizeof *writes; i++) OK(em_write(&machine, writes[i][0], writes[i][1]));
  for (int i = 0; i < 2; i++) OK(em_tx_step(&machine, &event));
  fill(frame, 500);
  OK(em_arrive(&machine, frame, 500, &event));
  OK(em_rx_step(&machine, &event));
  CHECK(event.octets == 256);
  OK(em_write(&machine, CTRL, CTRL_VME));
  memcpy(frame + 12, "\x81\x00\x01\x23", 4);
  OK(em_arrive(&machine, frame, 104, &event));
  return machine;
}

static void loads_what_is_stored_so(unsigned long changes) {
  unsigned loaded = 0, refused = 0;
  em_machine machine = small();
  const size_t length = stored(&machine, octets);
  /* (the second profile stores each frame with its FCS) */
  CHECK(length == LISTS + 8 + 40 + 8 + 2 * (12 + 4) + 500 + 100 + 8 + 8 + 80 + 1 + PAGE + 1 + BACK);
  em_free(&machine);
  for (unsigned long i = 0; i < changes; i++) {
    memcpy(others, octets, length);
    seed = i + 1;
    below(2);
    const size_t now = change(length);
    seal(others, now);
    const em_code code = em_load(&machine, others, now);
    if (code != EM_OK) {
      MUST(code == EM_STORED_VALUE && !machine.made && blocks == 0);
      refused++;
      continue;
    }
    MUST(is_stored_as(&machine, others, now));
    loaded++;
    for (uint32_t number = 0; number < 4; number++) ignored(perform(&machine, 0, (uint32_t)i + number).code);
    em_free(&machine);
  }
  CHECK(loaded > changes / 10 && refused > changes / 10 && blocks == 0);
}

int main(int words, char **word) {
  has_the_form_of_a_new_machine();
  has_the_form_of_frames();
  tells_how_much_it_needs();
  refuses_octets();
  refuses_what_is_cut();
  keeps_no_run();
  for (uint32_t round = 0; round < 40; round++) {
    goes_on(round % 2 ? EM_PROFILE_ADAPTER : EM_PROFILE_TABLE, round % 5 ? 0 : UINT64_C(0x180000000), round);
  }
  stores_nothing_that_is_attached();
  loads_what_is_stored_so(words > 1 ? strtoul(word[1], NULL, 10) : 100000);
  return tell_counts();
}
