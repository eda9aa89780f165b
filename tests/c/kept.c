/* A run that is kept: the line of each call, worked out by hand; each refusal; a file that can be written no more. And
   random calls of a machine whose run is kept, beside one whose is not: they come to the same. The linker hands write
   to this file (--wrap). `kept FOLDER ROUNDS` leaves its files there; with `mapped` behind that the runs are kept by a
   mapping, of whose refusals mapped.c is. The last line is `N passed, M failed`. */
#define _POSIX_C_SOURCE 200809L
#include "harness.h"

#include <errno.h>
#include <fcntl.h>
#include <stdarg.h>
#include <stdlib.h>
#include <sys/types.h>
#include <unistd.h>

enum { TEXT = 1 << 20, PATH = 4000, TX_BUFFER = 0xA000 };

static const char *folder;
static bool is_mapped;
static uint8_t ram[MEMORY];

static uint32_t record(em_machine *machine, const char *to) {
  return is_mapped ? em_record_mapped(machine, to) : em_record_to(machine, to);
}

/* ---- writes that fail */

static long whole = -1;   /* so many more go well; -1: all */
static size_t most = SIZE_MAX; /* octets of one write */
static int error;         /* by which a write fails; EINTR once */
static unsigned writes;

ssize_t __real_write(int, const void *, size_t);
ssize_t __wrap_write(int, const void *, size_t);

ssize_t __wrap_write(int file, const void *octets, size_t length) {
  writes++;
  if (whole == 0) {
    if (error == EINTR) whole = -1;
    errno = error;
    return error != 0 ? -1 : 0;
  }
  if (whole > 0) whole--;
  return __real_write(file, octets, length < most ? length : most);
}

/* ---- what stands in the file, and what has to */

static char path[PATH], wanted[TEXT], there[TEXT];
static size_t wants;

static void named(const char *name) {
  snprintf(path, sizeof path, "%s/%s", folder, name);
  wants = 0;
}

static void want(const char *form, ...) {
  va_list words;
  va_start(words, form);
  wants += (size_t)vsnprintf(wanted + wants, sizeof wanted - wants, form, words);
  va_end(words);
}

/* How many octets the file has, and puts them there; without the blanks that stand behind a mapping's lines. */
static size_t in_file(void) {
  int file = open(path, O_RDONLY);
  size_t length = 0;
  for (ssize_t done = 1; file >= 0 && done > 0; length += (size_t)done) done = read(file, there + length, TEXT - length);
  if (file >= 0) close(file);
  while (is_mapped && length > 0 && there[length - 1] == ' ') length--;
  return length;
}

static bool is_there(void) {
  size_t length = in_file();
  bool same = length == wants && !memcmp(there, wanted, length);
  if (!same) printf("there: %.*s\nwanted: %.*s\n", (int)length, there, (int)wants, wanted);
  return same;
}

/* a frame of `fill` */
static void want_frame(size_t length, const char *behind) {
  want("arrive ");
  for (size_t i = 0; i < length; i++) want("%02X", i < 6 ? 0xFF : (unsigned)i);
  want("%s\n", behind);
}

#define HEAD "# em_debug --memory 65536 --budget 1048576 --mac 525400123456\n"

static em_machine kept(const char *name) {
  em_machine machine = made();
  named(name);
  OK(record(&machine, path));
  want(HEAD);
  CHECK(is_there());
  return machine;
}

/* ---- each call's line */

static void keeps_registers(void) {
  em_machine m = kept("registers.em");
  uint32_t value;
  size_t done;
  OK(EM_WRITE(&m, IMS, LSC)), want("w D0 4 =ok @%s:%d\n", __FILE__, __LINE__);
  CHECK(is_there());
  OK(EM_SET_LINK(&m, true)), want("link up =ok @%s:%d\n", __FILE__, __LINE__);
  OK(EM_READ(&m, ICR, &value)), want("r C0 =00000004 @%s:%d\n", __FILE__, __LINE__);
  CHECK(value == LSC && is_there());
  OK(em_read(&m, ICR, &value)), want("r C0 =00000000 @%s:%d\n", __FILE__, __LINE__ - 2); /* the place stays */
  OK(em_source(&m, "", 7));
  REFUSED(em_read(&m, 0xC1, &value), EM_NO_REGISTER), want("r C1 =refused NoRegister\n");
  REFUSED(em_write(&m, UINT32_MAX, 1), EM_NO_REGISTER), want("w FFFFFFFF 1 =refused NoRegister\n");
  CHECK(is_there());
  OK(em_set_link(&m, false)), want("link down =ok\n");
  /* looks are not kept */
  OK(em_look(&m, ICR, &value));
  OK(em_line(&m, &value));
  CHECK(reach(&m) == 5);
  OK(EM_BACK(&m, 2, &done)), want("back 2 =back 2 @%s:%d\n", __FILE__, __LINE__);
  CHECK(done == 2);
  OK(em_back(&m, 0, &done));
  CHECK(done == 0 && is_there());
  OK(em_source(&m, NULL, 7));
  OK(em_back(&m, 9, &done)), want("back 9 =back 3\n");
  OK(em_back(&m, SIZE_MAX, &done)), want("back 65536 =back 0\n");
  CHECK(done == 0 && is_there());
  em_free(&m);
  CHECK(is_there());
}

/* accesses by their number of octets: of a word the line is a register's, and of another width there is none */
static void keeps_words(void) {
  em_machine m = kept("words.em");
  uint64_t value = 7;
  uint8_t out[60];
  size_t length;
  OK(EM_WRITE_SIZED(&m, IMS, 4, UINT64_C(0x500000004))), want("w D0 4 =ok @%s:%d\n", __FILE__, __LINE__);
  OK(EM_READ_SIZED(&m, IMS, 4, &value)), want("r D0 =00000004 @%s:%d\n", __FILE__, __LINE__);
  CHECK(value == 4 && is_there());
  REFUSED(EM_READ_SIZED(&m, IMS, 2, &value), EM_WIDTH);
  REFUSED(EM_WRITE_SIZED(&m, IMS, 8, 1), EM_WIDTH);
  OK(em_source(&m, NULL, 7));
  REFUSED(em_read_sized(&m, 0xC1, 4, &value), EM_NO_REGISTER), want("r C1 =refused NoRegister\n");
  CHECK(value == 4 && reach(&m) == 2);
  REFUSED(em_wire_next(&m, out, sizeof out, &length), EM_NO_FRAME); /* is kept as little as a look */
  em_free(&m);
  CHECK(is_there());
}

static void keeps_places(void) {
  char name[5000];
  em_machine m = kept("places.em");
  OK(em_tag(&m, 0xDEADBEEF12)), OK(em_write(&m, IMS, 1));
  want("w D0 1 =ok @0xDEADBEEF12\n");
  OK(em_source(&m, "a b.c", 4294967295u)), OK(em_write(&m, IMS, 1));
  want("w D0 1 =ok @a b.c:4294967295\n");
  OK(em_tag(&m, 0)), OK(em_write(&m, IMS, 1)), want("w D0 1 =ok\n");
  OK(em_source(&m, "#\n.c", 1)), OK(em_write(&m, IMS, 1)), want("w D0 1 =ok @??.c:1\n");
  memset(name, 'x', sizeof name), name[sizeof name - 1] = 0;
  OK(em_source(&m, name, 1)), OK(em_write(&m, IMS, 1)), want("w D0 1 =ok @%.4096s:1\n", name);
  CHECK(is_there());
  em_free(&m);
  /* a tag that was set before */
  m = made();
  named("tag.em");
  OK(em_tag(&m, 5)), OK(record(&m, path)), OK(em_write(&m, IMS, 1));
  want(HEAD "w D0 1 =ok @0x5\n");
  CHECK(is_there());
  em_free(&m);
}

static void keeps_octets(void) {
  static uint8_t frame[20001], large[16385];
  em_machine m = kept("octets.em");
  em_note note;
  size_t count = 9;
  fill(frame, sizeof frame);
  OK(em_poke(&m, 0x1000, MAC, 6)), want("poke 1000 525400123456 =ok\n");
  REFUSED(em_poke(&m, MEMORY - 1, MAC, 2), EM_RANGE), want("poke FFFF 5254 =refused Range\n");
  REFUSED(em_poke(&m, 16, MAC, 0), EM_LENGTH), want("# poke 10 length 0 =refused Length\n");
  REFUSED(em_arrive(&m, frame, 0, &note), EM_LENGTH), want("# arrive length 0 =refused Length\n");
  REFUSED(em_arrive(&m, frame, 20001, &note), EM_LENGTH), want("# arrive length 20001 =refused Length\n");
  REFUSED(EM_ARRIVE(&m, frame, 2, &note), EM_LENGTH);
  want("arrive FFFF =refused Length @%s:%d\n", __FILE__, __LINE__ - 1);
  OK(em_source(&m, NULL, 0));
  OK(em_arrive(&m, frame, 14, &note)), want("arrive FFFFFFFFFFFF060708090A0B0C0D =dropped down\n");
  CHECK(note.kind == EM_DOWN && is_there());
  OK(EM_SYNC_IN_RANGE(&m, 0x1000, MAC, 6, &count)); /* nothing differs */
  CHECK(count == 0);
  OK(EM_SYNC_IN_RANGE(&m, 0x1001, MAC, 6, &count));
  want("poke 1001 525400123456 =ok @%s:%d\n", __FILE__, __LINE__ - 1);
  CHECK(count == 1);
  OK(em_sync_in_range(&m, 0x1001, (const uint8_t[]){0x52, 0x99, 0x00, 0x98, 0x34, 0x56}, 6, &count));
  want("poke 1002 990098 =ok @%s:%d\n", __FILE__, __LINE__ - 4);
  REFUSED(em_sync_in_range(&m, MEMORY - 1, MAC, 2, &count), EM_RANGE);
  REFUSED(em_sync_in_range(&m, MEMORY - 1, large, sizeof large, &count), EM_RANGE);
  REFUSED(em_sync_in_range(&m, 0, large, sizeof large, &count), EM_LENGTH);
  OK(em_sync_in_range(&m, MEMORY, MAC, 0, &count));
  CHECK(count == 0);
  OK(em_sync_out(&m, ram, MEMORY));
  ram[0] = 1, ram[0xFFF] = 2, ram[0x1000] = 3, ram[MEMORY - 1] = 0xAB;
  REFUSED(EM_SYNC_IN(&m, ram, MEMORY - 1, &count), EM_LENGTH);
  OK(em_source(&m, NULL, 0));
  OK(em_sync_in(&m, ram, MEMORY, &count));
  CHECK(count == 3);
  want("poke 0 01%.8188s02 =ok\n", "");
  wants -= 5 + 2, memset(wanted + wants, '0', 8188), wants += 8188, want("02 =ok\n");
  want("poke 1000 03 =ok\npoke FFFF AB =ok\n");
  CHECK(is_there());
  em_free(&m);
}

static void keeps_steps(void) {
  em_machine m = kept("steps.em");
  uint8_t frame[60];
  em_note note;
  size_t done;
  fill(frame, sizeof frame);
  set_receiving(&m);
  OK(em_arrive(&m, frame, 60, &note));
  OK(em_arrive(&m, frame, 60, &note));
  CHECK(note.kind == EM_STORED);
  put_descriptor(&m, TX_RING, BUFFER, 60, EOP | RS);
  put_descriptor(&m, TX_RING + 16, BUFFER, 30, 0);
  OK(em_write(&m, TDBAL, TX_RING));
  OK(em_write(&m, TDLEN, 128));
  OK(em_write(&m, TCTL, TCTL_EN));
  OK(em_write(&m, TDT, 2));
  wants = in_file(); /* (such lines were tried above) */
  memcpy(wanted, there, wants);
  OK(EM_RX_STEP(&m, &note)), want("rx =wrote 0 @%s:%d\n", __FILE__, __LINE__);
  CHECK(note.kind == EM_WROTE && note.value == 0 && is_there());
  OK(EM_RUN_RX(&m, SIZE_MAX, &done));
  want("rx =wrote 1 @%s:%d\nrx =idle @%s:%d\n", __FILE__, __LINE__ - 1, __FILE__, __LINE__ - 1);
  CHECK(done == 1 && is_there());
  OK(EM_TX_STEP(&m, &note)), want("tx =sent 0 60 @%s:%d\n", __FILE__, __LINE__);
  CHECK(note.kind == EM_SENT && note.length == 60);
  OK(EM_RUN_TX(&m, 1, &done)), want("tx =fetched 1 @%s:%d\n", __FILE__, __LINE__);
  CHECK(done == 1 && is_there());
  OK(em_source(&m, NULL, 0));
  OK(em_run_tx(&m, 1, &done)), want("tx =idle\n");
  CHECK(done == 0 && is_there());
  /* a refused step, and the steps before it */
  put_descriptor(&m, RX_RING + 48, MEMORY - 1, 0, 0);
  want("poke 1030 FFFF0000000000000000000000000000 =ok\n");
  OK(em_arrive(&m, frame, 60, &note)), want_frame(60, " =stored");
  OK(em_arrive(&m, frame, 60, &note)), want_frame(60, " =stored");
  REFUSED(em_run_rx(&m, SIZE_MAX, &done), EM_DMA_RANGE), want("rx =wrote 2\nrx =refused DmaRange\n");
  CHECK(done == 1 && is_there());
  em_free(&m);
}

/* ---- the capture of a run: each frame has the line that sent it, as em_debug counts them */

/* the times of the frames, in microseconds, of frames of 60 octets */
static bool has_times(const char *capture, size_t count, const uint64_t *lines) {
  static uint8_t octets[4096];
  int file = open(capture, O_RDONLY);
  ssize_t length = file < 0 ? -1 : read(file, octets, sizeof octets);
  if (file >= 0) close(file);
  bool same = length == (ssize_t)(24 + 76 * count);
  for (size_t i = 0; i < count && same; i++) {
    const uint8_t *at = octets + 24 + 76 * i;
    same = !(at[0] | at[1] | at[2] | at[3]) && (at[4] | at[5] << 8 | (uint64_t)at[6] << 16) == lines[i] * 1000;
  }
  return same;
}

static void keeps_lines_of_frames(void) {
  em_machine m = kept("sent.em");
  char to[PATH];
  em_note note;
  size_t done, lines = 0;
  int fault;
  snprintf(to, sizeof to, "%s/sent.pcap", folder);
  OK(em_set_link(&m, true));
  OK(em_poke(&m, BUFFER, ram, 60));
  for (unsigned i = 0; i < DESCRIPTORS; i++) put_descriptor(&m, TX_RING + 16 * i, BUFFER, 60, EOP);
  OK(em_write(&m, TDBAL, TX_RING));
  OK(em_write(&m, TDLEN, 128));
  OK(em_write(&m, TCTL, TCTL_EN));
  OK(em_write(&m, TDT, 7));
  for (size_t length = in_file(), i = 0; i < length; i++) lines += there[i] == '\n';
  CHECK(lines == 1 + 2 + DESCRIPTORS + 4);
  OK(em_tx_step(&m, &note));                                    /* line 16 */
  OK(em_run_tx(&m, 2, &done));                                  /* lines 17 and 18 */
  OK(em_write(&m, IMS, 1));                                     /* line 19 */
  OK(em_pcap_write(&m, to, NULL));
  CHECK(has_times(to, 3, (const uint64_t[]){16, 17, 18}));
  OK(em_back(&m, 3, &done));                                    /* line 20: the last two are off the wire */
  OK(em_pcap_write(&m, to, NULL));
  CHECK(has_times(to, 1, (const uint64_t[]){16}));
  OK(em_run_tx(&m, SIZE_MAX, &done));                           /* lines 21 to 26, and one that is idle */
  OK(em_pcap_write(&m, to, NULL));
  CHECK(done == 6 && has_times(to, 7, (const uint64_t[]){16, 21, 22, 23, 24, 25, 26}));
  OK(em_back(&m, 2, &done));
  OK(em_set_link(&m, false));
  OK(em_run_tx(&m, 1, &done));
  OK(em_pcap_write(&m, to, NULL));
  /* em_debug writes the same of this file, as tests/c_library has it; and what the caller says goes before */
  snprintf(to, sizeof to, "%s/said.pcap", folder);
  OK(em_pcap_write(&m, to, (const uint64_t[]){1000, 2000, 3000, 4000, 5000, 6000, 7000}));
  CHECK(has_times(to, 7, (const uint64_t[]){1, 2, 3, 4, 5, 6, 7}));
  OK(em_recording_status(&m, &fault));
  em_free(&m);
}

/* a machine with a frame to send */
static em_machine ready(const char *name) {
  em_machine m = kept(name);
  OK(em_poke(&m, BUFFER, ram, 60));
  OK(em_set_link(&m, true));
  put_descriptor(&m, TX_RING, BUFFER, 60, EOP);
  OK(em_write(&m, TDBAL, TX_RING));
  OK(em_write(&m, TDLEN, 128));
  OK(em_write(&m, TCTL, TCTL_EN));
  OK(em_write(&m, TDT, 1));
  return m;
}

/* Where memory is refused for which line it was, or the run is kept no more. */
static void knows_no_lines(void) {
  em_machine m = ready("unknown.em");
  char to[PATH];
  em_note note;
  em_code code = EM_MEMORY;
  size_t done;
  int fault;
  snprintf(to, sizeof to, "%s/unknown.pcap", folder);
  unlink(to);
  once = false;
  for (long n = 0; n < 100; n++) { /* as many requests as the machine makes are granted, and no more */
    granted = n;
    code = em_tx_step(&m, &note);
    granted = -1;
    if (code != EM_MEMORY) break;
    em_free(&m);
    m = ready("unknown.em");
  }
  CHECK(code == EM_OK && note.kind == EM_SENT);
  REFUSED(em_pcap_write(&m, to, NULL), EM_MEMORY);
  CHECK(access(to, F_OK) != 0);
  OK(em_pcap_write(&m, to, (const uint64_t[]){7000}));
  CHECK(has_times(to, 1, (const uint64_t[]){7}));
  /* it is taken back, and sent once more */
  OK(em_back(&m, 1, &done));
  OK(em_tx_step(&m, &note));
  OK(em_pcap_write(&m, to, NULL));
  CHECK(has_times(to, 1, (const uint64_t[]){11}));
  em_free(&m);
  if (is_mapped) return;
  m = kept("unknown.em");
  error = EIO, whole = 0;
  OK(em_set_link(&m, true));
  whole = -1;
  OK(em_pcap_write(&m, to, NULL));
  REFUSED(em_recording_status(&m, &fault), EM_FILE);
  OK(em_pcap_write(&m, to, NULL));
  CHECK(has_times(to, 0, NULL));
  em_free(&m);
}

/* ---- attached memory */

static bool writes_there = true;

static bool read_there(void *context, uint64_t address, uint8_t *out, size_t length) {
  em_machine *m = context;
  int fault;
  CHECK(record(m, path) == EM_BUSY && em_source(m, "x", 1) == EM_BUSY && em_recording_status(m, &fault) == EM_BUSY);
  memcpy(out, ram + address, length);
  return true;
}

static bool write_there(void *context, uint64_t address, const uint8_t *octets, size_t length) {
  (void)context;
  if (writes_there) memcpy(ram + address, octets, length);
  return writes_there;
}

static void keeps_what_is_brought(void) {
  em_machine m = kept("attached.em");
  em_ram by_calls = {&m, read_there, write_there, NULL, 0};
  const em_region all = {0, MEMORY, ram};
  const em_ram by_regions = {NULL, NULL, NULL, &all, 1};
  uint8_t frame[60];
  em_note note;
  size_t done;
  memset(ram, 0, sizeof ram);
  OK(em_attach(&m, &by_calls));
  fill(frame, sizeof frame);
  OK(em_set_link(&m, true)), want("link up =ok\n");
  OK(em_write(&m, RDBAL, RX_RING)), want("w 2800 1000 =ok\n");
  OK(em_write(&m, RDLEN, 128)), want("w 2808 80 =ok\n");
  OK(em_write(&m, RDT, 4)), want("w 2818 4 =ok\n");
  OK(em_write(&m, RCTL, 0x8002)), want("w 100 8002 =ok\n");
  ram[RX_RING + 1] = 0x40, ram[0x4003] = 9;
  OK(em_arrive(&m, frame, 60, &note)), want_frame(60, " =stored");
  OK(em_rx_step(&m, &note));
  want("poke 1001 40 =ok\npoke 4003 09 =ok\nrx =wrote 0\n");
  CHECK(ram[0x4000] == 0xFF && is_there());
  OK(em_back(&m, 3, &done)), want("back 1 =back 1\nback 2 =back 2\n");
  CHECK(done == 3 && ram[0x4000] == 0 && ram[0x4003] == 9 && is_there());
  /* what is brought for a refused step is taken back */
  writes_there = false;
  REFUSED(em_rx_step(&m, &note), EM_UNWRITTEN);
  want("poke 1001 40 =ok\npoke 4003 09 =ok\nrx =wrote 0\nback 3 =back 3\n");
  REFUSED(em_poke(&m, 0, MAC, 1), EM_UNWRITTEN), want("poke 0 52 =ok\nback 1 =back 1\n");
  CHECK(is_there());
  writes_there = true;
  OK(em_attach(&m, &by_regions));
  OK(em_run_rx(&m, SIZE_MAX, &done));
  want("poke 1001 40 =ok\npoke 4003 09 =ok\nrx =wrote 0\nrx =idle\n");
  CHECK(done == 1 && ram[0x4000] == 0xFF && is_there());
  OK(em_detach(&m));
  ram[0] = 0;
  OK(em_poke(&m, 0, MAC, 1)), want("poke 0 52 =ok\n");
  CHECK(ram[0] == 0 && is_there());
  OK(em_attach(&m, &by_regions));
  em_free(&m);
  CHECK(!m.made && m.state == 0 && m.ram.regions == NULL);
}

/* ---- the head, and what refuses */

static void keeps_the_eeprom(void) {
  em_machine m = EM_NO_MACHINE;
  uint16_t words[64];
  uint32_t eerd;
  for (unsigned i = 0; i < 64; i++) words[i] = (uint16_t)(0xA000 + i);
  named("eeprom.em");
  OK(em_make_with_eeprom(&m, 4096, 65536, words));
  OK(record(&m, path));
  want("# em_debug --memory 4096 --budget 65536 --mac 00A001A002A0\n# eeprom ");
  for (unsigned i = 0; i < 64; i++) want("%04X", words[i]);
  want("\n");
  CHECK(is_there() && reach(&m) == 0);
  OK(em_look(&m, EERD, &eerd)); /* it is as it was */
  CHECK(eerd == 0);
  em_free(&m);
}

static void keeps_memory_at_a_base(void) {
  enum { SIZE = 8192 };
  const uint64_t at = 0x180000000;
  static uint8_t ram[SIZE];
  em_machine m = EM_NO_MACHINE;
  size_t count;
  named("base.em");
  OK(em_make_at(&m, at, SIZE, 65536, MAC));
  OK(record(&m, path));
  want("# em_debug --memory 8192 --budget 65536 --base 0000000180000000 --mac 525400123456\n");
  OK(em_source(&m, "", 1));
  OK(em_poke(&m, at + SIZE - 1, MAC, 1)), want("poke 180001FFF 52 =ok\n");
  REFUSED(em_poke(&m, at + SIZE, MAC, 1), EM_RANGE), want("poke 180002000 52 =refused Range\n");
  REFUSED(em_poke(&m, 0, MAC, 1), EM_RANGE), want("poke 0 52 =refused Range\n");
  memset(ram, 0, sizeof ram);
  ram[4095] = ram[4096] = 7;
  OK(em_sync_in(&m, ram, SIZE, &count));
  want("poke 180000FFF 07 =ok\n");
  want("poke 180001000 07");
  for (unsigned i = 1; i < 4096; i++) want("00");
  want(" =ok\n");
  CHECK(count == 2 && is_there());
  em_free(&m);
  /* the words of an EEPROM stand behind it, as ever */
  uint16_t words[64] = {0x5452};
  named("base-words.em");
  OK(em_make_at_with_eeprom(&m, 4096, 4096, 65536, words));
  OK(record(&m, path));
  want("# em_debug --memory 4096 --budget 65536 --base 0000000000001000 --mac 525400000000\n# eeprom 5452");
  for (unsigned i = 1; i < 64; i++) want("0000");
  want("\n");
  CHECK(is_there());
  em_free(&m);
}

static void keeps_the_profile(void) {
  em_machine m = EM_NO_MACHINE;
  uint32_t value;
  named("profile.em");
  OK(em_make_as(&m, EM_PROFILE_ADAPTER, 0, 8192, 65536, MAC));
  OK(record(&m, path));
  want("# em_debug --memory 8192 --budget 65536 --profile adapter --mac 525400123456\n");
  OK(em_source(&m, "", 1));
  OK(em_write(&m, 0x20, 0x08220000)), want("w 20 8220000 =ok\n");
  OK(em_read(&m, 0x20, &value)), want("r 20 =18220141\n");
  CHECK(is_there());
  em_free(&m);
}

/* A run is kept of the machine alone, and of no copy. */
static void keeps_no_copy(void) {
  em_machine m = kept("copy.em"), copy = EM_NO_MACHINE;
  size_t done;
  int fault;
  OK(em_write(&m, IMS, 1)), want("w D0 1 =ok\n");
  OK(em_copy(&m, &copy));
  REFUSED(em_recording_status(&copy, &fault), EM_UNRECORDED);
  OK(em_write(&copy, IMS, 2));
  OK(em_back(&copy, 1, &done));
  REFUSED(record(&copy, path), EM_BEGUN);
  OK(em_write(&m, IMS, 4)), want("w D0 4 =ok\n");
  em_free(&copy);
  OK(em_write(&m, IMS, 8)), want("w D0 8 =ok\n");
  CHECK(is_there());
  em_free(&m);
  /* that of a copy can be kept from its first event on */
  m = made();
  OK(em_copy(&m, &copy));
  named("copied.em");
  OK(record(&copy, path)), OK(em_write(&copy, IMS, 1)), want(HEAD "w D0 1 =ok\n");
  CHECK(is_there());
  em_free(&copy);
  em_free(&m);
}

static void refuses_calls(void) {
  em_machine m = EM_NO_MACHINE;
  size_t done;
  int fault = 77;
  named("refused.em");
  unlink(path);
  REFUSED(record(&m, path), EM_NOT_MADE);
  REFUSED(em_source(&m, "x", 1), EM_NOT_MADE);
  REFUSED(em_recording_status(&m, &fault), EM_NOT_MADE);
  m = made();
  REFUSED(em_recording_status(&m, &fault), EM_UNRECORDED);
  OK(em_source(&m, "x", 1)); /* which no line shows */
  OK(em_write(&m, IMS, 1));
  REFUSED(record(&m, path), EM_BEGUN);
  OK(em_back(&m, 1, &done));
  REFUSED(record(&m, path), EM_BEGUN);
  em_free(&m);
  m = made();
  OK(em_back(&m, 1, &done)); /* of nothing */
  REFUSED(record(&m, "/nowhere/at/all"), EM_FILE);
  CHECK(errno == ENOENT && reach(&m) == 0);
  REFUSED(record(&m, "/dev/full"), EM_FILE);
  CHECK(errno == (is_mapped ? EINVAL : ENOSPC) && m.state == (uint32_t)BUDGET << 5); /* (it can't be cut) */
  granted = 0, once = true;
  REFUSED(record(&m, path), EM_MEMORY);
  CHECK(access(path, F_OK) != 0 && fault == 77);
  granted = -1;
  OK(record(&m, path));
  REFUSED(record(&m, path), EM_RECORDED);
  OK(em_recording_status(&m, &fault));
  OK(em_recording_status(&m, &fault));
  CHECK(fault == 77);
  want(HEAD);
  CHECK(is_there());
  REFUSED(em_make(&m, MEMORY, BUDGET, MAC), EM_MADE_ALREADY);
  OK(em_write(&m, IMS, 1)), want("w D0 1 =ok\n");
  CHECK(is_there());
  em_free(&m);
  m = made(); /* whose run is not kept */
  OK(em_write(&m, IMS, 2));
  CHECK(is_there());
  em_free(&m);
}

/* a request for memory that is refused to a call */
static void keeps_want_of_memory(void) {
  em_machine m = kept("memory.em");
  em_note note;
  uint8_t frame[60];
  fill(frame, sizeof frame);
  set_receiving(&m);
  em_free(&m);
  m = kept("memory.em");
  granted = 0;
  REFUSED(em_poke(&m, 0x8000, MAC, 6), EM_MEMORY), want("# poke 8000 length 6 =refused Memory\n");
  granted = -1;
  OK(em_poke(&m, 0x8000, MAC, 6)), want("poke 8000 525400123456 =ok\n");
  OK(em_arrive(&m, frame, 13, &note) == EM_LENGTH ? EM_OK : 1);
  want("arrive FFFFFFFFFFFF060708090A0B0C =refused Length\n");
  CHECK(is_there());
  em_free(&m);
}

/* ---- writes that fail */

static void goes_on(int how, size_t part) {
  em_machine m = kept("failing.em");
  uint32_t value;
  int fault = 0;
  OK(em_write(&m, IMS, 1)), want("w D0 1 =ok\n");
  most = part, writes = 0;
  OK(em_write(&m, IMS, 2)), want("w D0 2 =ok\n");
  /* the line has 11 octets */
  CHECK(writes == (part < 11 ? 11 / part + (11 % part != 0) : 1) && is_there());
  most = SIZE_MAX, error = how, whole = 0;
  OK(em_write(&m, IMS, 4));
  whole = -1;
  if (how == EINTR) want("w D0 4 =ok\n");
  OK(em_read(&m, IMS, &value));
  CHECK(value == 7);
  if (how == EINTR) {
    want("r D0 =00000007\n");
    OK(em_recording_status(&m, &fault));
  } else {
    REFUSED(em_recording_status(&m, &fault), EM_FILE);
    CHECK(fault == (how ? how : EIO));
    REFUSED(em_recording_status(&m, &fault), EM_UNRECORDED);
  }
  CHECK(is_there());
  OK(em_write(&m, IMS, 8)); /* and on */
  REFUSED(record(&m, path), how == EINTR ? EM_RECORDED : EM_BEGUN);
  em_free(&m);
}

/* a file that is full within a line: the line is torn there, and the last one */
static void tears(void) {
  em_machine m = kept("torn.em");
  int fault = 0;
  most = 4, whole = 1, error = ENOSPC;
  OK(em_write(&m, IMS, 1)), want("w D0");
  most = SIZE_MAX, whole = -1;
  OK(em_write(&m, IMS, 2));
  CHECK(is_there());
  OK(em_attach(&m, &(em_ram){NULL, NULL, NULL, &(em_region){0, MEMORY, ram}, 1}));
  REFUSED(em_recording_status(&m, &fault), EM_FILE);
  CHECK(fault == ENOSPC && m.ram.count == 1); /* what is attached stays so */
  ram[5] = 0;
  OK(em_poke(&m, 5, MAC, 1));
  CHECK(ram[5] == MAC[0] && is_there());
  em_free(&m);
}

/* ---- random calls, of one whose run is kept and of one whose is not */

static uint64_t state = 88172645463325252u;

static uint32_t draw(uint32_t below) {
  state ^= state << 13, state ^= state >> 7, state ^= state << 17;
  return (uint32_t)(state >> 33) % below;
}

static void same_machines(em_machine *m, em_machine *n) {
  static em_register r[2][EM_REGISTERS];
  static uint8_t octets[2][MEMORY];
  size_t counts[2];
  MUST(em_registers(m, r[0], EM_REGISTERS, &counts[0]) == EM_OK && em_registers(n, r[1], EM_REGISTERS, &counts[1]) == EM_OK);
  MUST(counts[0] == counts[1] && !memcmp(r[0], r[1], counts[0] * sizeof r[0][0]));
  MUST(em_peek(m, 0, octets[0], MEMORY) == EM_OK && em_peek(n, 0, octets[1], MEMORY) == EM_OK);
  MUST(!memcmp(octets[0], octets[1], MEMORY));
  MUST(reach(m) == reach(n));
}

static void calls_at_random(unsigned rounds) {
  static const uint32_t offsets[] = {CTRL, ICR, IMS, RCTL, TCTL, RDT, RDH, TDT, EERD, STATUS, RDBAL, RDLEN, 0x3, 0x5200};
  static uint8_t frame[1600];
  em_machine m = made(), n = made();
  unsigned all = 0;
  named("random.em");
  OK(record(&m, path));
  for (unsigned i = 0; i < rounds; i++) {
    uint32_t offset = offsets[draw(sizeof offsets / sizeof *offsets)], a[2] = {0, 0}, b = draw(8) ? draw(16) : draw(1u << 31);
    size_t done[2] = {0, 0}, length = draw(200), at = draw(8) * 16 + (draw(2) ? RX_RING : TX_RING);
    em_note notes[2] = {{0, 0, 0, 0, 0, 0, 0}, {0, 0, 0, 0, 0, 0, 0}};
    uint8_t octets[256];
    uint32_t codes[2];
    MUST(em_source(&m, draw(2) ? "random.c" : NULL, i) == EM_OK);
#define BOTH(call, ...) \
  (codes[0] = em_##call(&m, __VA_ARGS__), codes[1] = em_##call(&n, __VA_ARGS__))
    em_machine *machines[2] = {&m, &n};
    if (offset == RDBAL) b = RX_RING;
    if (offset == RDLEN) b = 128;
    for (int k = 0; k < 16; k++) octets[k] = (uint8_t)(k == 1 ? 0x40 + draw(8) * 8 : k == 8 ? draw(100) : k == 11 ? draw(16) : 0);
    uint32_t kind = draw(12), steps = draw(6);
    fill(frame, sizeof frame), frame[20] = (uint8_t)i, frame[0] = (uint8_t)(draw(8) ? 0xFF : 0);
    for (int k = 0; k < 2; k++) {
      em_machine *one = machines[k];
      codes[k] = kind < 2 ? em_read(one, offset, &a[k])
        : kind < 5 ? em_write(one, offset, b)
        : kind == 5 ? em_poke(one, at, octets, 16)
        : kind == 6 ? em_arrive(one, frame, length, &notes[k])
        : kind == 7 ? em_rx_step(one, &notes[k])
        : kind == 8 ? em_tx_step(one, &notes[k])
        : kind == 9 ? (steps & 1 ? em_run_rx(one, steps, &done[k]) : em_run_tx(one, steps, &done[k]))
        : kind == 10 ? em_set_link(one, steps > 0)
        : em_back(one, steps, &done[k]);
    }
    MUST(codes[0] == codes[1] && a[0] == a[1] && done[0] == done[1]);
    MUST(notes[0].kind == notes[1].kind && notes[0].value == notes[1].value && notes[0].length == notes[1].length);
    if (i % 4096 == 0) same_machines(&m, &n), all++;
  }
  same_machines(&m, &n);
  /* and all of memory, from one to the other */
  size_t count[2];
  OK(em_sync_out(&m, ram, MEMORY));
  for (int i = 0; i < 30; i++) ram[draw(MEMORY)] ^= (uint8_t)draw(256);
  OK(em_sync_in(&m, ram, MEMORY, &count[0]));
  OK(em_sync_in(&n, ram, MEMORY, &count[1]));
  CHECK(count[0] == count[1] && count[0] > 0);
  same_machines(&m, &n);
  CHECK(all > 0);
  char to[PATH];
  snprintf(to, sizeof to, "%s/random.pcap", folder);
  OK(em_pcap_write(&m, to, NULL));
  em_free(&m), em_free(&n);
}

int main(int words, char **word) {
  if (words < 2) return 1;
  folder = word[1];
  is_mapped = words > 3;
  keeps_registers();
  keeps_words();
  keeps_places();
  keeps_octets();
  keeps_steps();
  keeps_lines_of_frames();
  knows_no_lines();
  keeps_what_is_brought();
  keeps_the_eeprom();
  keeps_memory_at_a_base();
  keeps_the_profile();
  keeps_no_copy();
  refuses_calls();
  keeps_want_of_memory();
  if (!is_mapped) goes_on(ENOSPC, 10), goes_on(0, 11), goes_on(EINTR, 1), goes_on(EIO, 100), tears();
  calls_at_random(words > 2 ? (unsigned)atoi(word[2]) : 20000);
  CHECK(blocks == 0);
  return tell_counts();
}
