/* Each call of the C library once, and each refusal: what they give was worked out from the manual's tables. The last
   line is `N passed, M failed`. */
#define _DEFAULT_SOURCE
#include "harness.h"

#include <stdlib.h>
#include <sys/mman.h>

/* ---- the calls */

static void makes_and_frees(void) {
  em_machine machine = EM_NO_MACHINE;
  uint16_t words[64] = {0x5452, 0x1200, 0x5634};
  REFUSED(em_make(&machine, 4095, BUDGET, MAC), EM_SIZE);
  REFUSED(em_make(&machine, 4097, 65535, MAC), EM_SIZE);
  REFUSED(em_make(&machine, 16777216 + 4096, BUDGET, MAC), EM_SIZE);
  REFUSED(em_make(&machine, 4096, 65535, MAC), EM_BUDGET);
  REFUSED(em_make(&machine, 4096, 16777217, MAC), EM_BUDGET);
  CHECK(!machine.made);
  OK(em_make(&machine, MEMORY, BUDGET, MAC));
  CHECK(machine.made);
  REFUSED(em_make(&machine, MEMORY, BUDGET, MAC), EM_MADE_ALREADY);
  REFUSED(em_make_with_eeprom(&machine, MEMORY, BUDGET, words), EM_MADE_ALREADY);
  CHECK(read_of(&machine, RAL0) == 0x12005452 && read_of(&machine, RAH0) == 0x80005634);
  em_free(&machine);
  CHECK(!machine.made);
  em_free(&machine);
  words[63] = 0xCAFE;
  REFUSED(em_make_with_eeprom(&machine, 0, BUDGET, words), EM_SIZE);
  OK(em_make_with_eeprom(&machine, 4096, 65536, words));
  CHECK(read_of(&machine, RAL0) == 0x12005452);
  OK(em_write(&machine, EERD, 0x3F01)); /* the word at 63 */
  CHECK(read_of(&machine, EERD) == 0xCAFE3F10);
  em_free(&machine);
  CHECK(blocks == 0);
}

/* where memory may begin and end, and what comes first of two refusals */
static void makes_at_a_base(void) {
  em_machine machine = EM_NO_MACHINE;
  const uint64_t most = UINT64_C(1) << 40;
  uint16_t words[64] = {0x5452, 0x1200, 0x5634};
  uint64_t base = 7, size = 7;
  REFUSED(em_make_at(&machine, 4095, 4096, BUDGET, MAC), EM_SIZE);
  REFUSED(em_make_at(&machine, 4096, 4095, BUDGET, MAC), EM_SIZE);
  REFUSED(em_make_at(&machine, 4096, 0, BUDGET, MAC), EM_SIZE);
  REFUSED(em_make_at(&machine, 4096, most, BUDGET, MAC), EM_SIZE);
  REFUSED(em_make_at(&machine, most, 4096, BUDGET, MAC), EM_SIZE);
  REFUSED(em_make_at(&machine, UINT64_MAX - 4095, 4096, BUDGET, MAC), EM_SIZE);
  REFUSED(em_make_at(&machine, 4095, 4096, 5, MAC), EM_SIZE);
  REFUSED(em_make_at(&machine, 4096, 4096, 5, MAC), EM_BUDGET);
  REFUSED(em_make_at_with_eeprom(&machine, most - 4096, 8192, BUDGET, words), EM_SIZE);
  REFUSED(em_memory_base(&machine, &base), EM_NOT_MADE);
  CHECK(!machine.made && base == 7);
  OK(em_make_at(&machine, most - 4096, 4096, BUDGET, MAC));
  REFUSED(em_make_at(&machine, 0, 4096, BUDGET, MAC), EM_MADE_ALREADY);
  REFUSED(em_make_at_with_eeprom(&machine, 0, 4096, BUDGET, words), EM_MADE_ALREADY);
  OK(em_memory_base(&machine, &base));
  OK(em_memory_size(&machine, &size));
  CHECK(base == most - 4096 && size == 4096 && read_of(&machine, RAL0) == 0x12005452);
  em_free(&machine);
  OK(em_make_at_with_eeprom(&machine, 0, most, BUDGET, words));
  OK(em_memory_size(&machine, &size));
  CHECK(size == most && read_of(&machine, RAL0) == 0x12005452);
  OK(em_poke(&machine, most - 5, (const uint8_t *)"hello", 5));
  em_free(&machine);
  CHECK(blocks == 0);
}

/* a machine of each profile, its registers, and what comes first of two refusals */
static void makes_of_a_profile(void) {
  enum { EECD = 0x10, MDIC = 0x20 };
  em_machine machine = EM_NO_MACHINE;
  uint16_t words[64] = {0x5452, 0x1200, 0x5634};
  uint32_t profile = 7, value = 7;
  uint64_t base = 7;
  size_t count = 0;
  static em_register all[EM_REGISTERS];
  REFUSED(em_make_as(&machine, 2, 4095, 4096, 5, MAC), EM_NO_PROFILE);
  REFUSED(em_make_as(&machine, UINT32_MAX, 0, 4096, BUDGET, MAC), EM_NO_PROFILE);
  REFUSED(em_make_as_with_eeprom(&machine, 2, 0, 4096, BUDGET, words), EM_NO_PROFILE);
  REFUSED(em_make_as(&machine, EM_PROFILE_ADAPTER, 4095, 4096, 5, MAC), EM_SIZE);
  REFUSED(em_make_as(&machine, EM_PROFILE_ADAPTER, 4096, 4096, 5, MAC), EM_BUDGET);
  REFUSED(em_profile(&machine, &profile), EM_NOT_MADE);
  CHECK(!machine.made && profile == 7);
  OK(em_make_as(&machine, EM_PROFILE_ADAPTER, 4096, 8192, BUDGET, MAC));
  REFUSED(em_make_as(&machine, 2, 0, 4096, BUDGET, MAC), EM_MADE_ALREADY);
  REFUSED(em_make_as_with_eeprom(&machine, EM_PROFILE_TABLE, 0, 4096, BUDGET, words), EM_MADE_ALREADY);
  OK(em_profile(&machine, &profile));
  OK(em_memory_base(&machine, &base));
  CHECK(profile == EM_PROFILE_ADAPTER && base == 4096 && read_of(&machine, RAL0) == 0x12005452);
  OK(em_write(&machine, MDIC, 0x08220000)); /* the PHY's word 2 is read */
  OK(em_write(&machine, EECD, 0x42));       /* REQ and CS */
  OK(em_look(&machine, MDIC, &value));
  CHECK(value == 0x18220141 && read_of(&machine, EECD) == 0x1CA);
  OK(em_registers(&machine, all, EM_REGISTERS, &count));
  CHECK(count > 4 && all[0].offset == CTRL && all[0].value == 0x00140240 && all[1].offset == STATUS);
  CHECK(all[2].offset == EECD && all[2].value == 0x1CA);
  OK(em_back(&machine, 2, &count));
  CHECK(count == 2 && read_of(&machine, EECD) == 0x118);
  OK(em_loops(&machine, &value));
  CHECK(value == 0);
  OK(em_write(&machine, RCTL, 0x80)); /* LBM */
  OK(em_loops(&machine, &value));
  CHECK(value == 1);
  OK(em_write(&machine, RCTL, 0x100));
  OK(em_loops(&machine, &value));
  CHECK(value == 0);
  OK(em_write(&machine, MDIC, 0x04204140)); /* loopback in the PHY's word 0 */
  OK(em_loops(&machine, &value));
  CHECK(value == 1);
  OK(em_back(&machine, 1, &count));
  OK(em_loops(&machine, &value));
  CHECK(value == 0);
  em_free(&machine);
  OK(em_make_as_with_eeprom(&machine, EM_PROFILE_TABLE, 0, UINT64_C(1) << 40, BUDGET, words));
  OK(em_profile(&machine, &profile));
  CHECK(profile == EM_PROFILE_TABLE && read_of(&machine, RAL0) == 0x12005452);
  OK(em_write(&machine, RCTL, 0xC0));
  OK(em_loops(&machine, &value));
  CHECK(value == 0);
  REFUSED(em_read(&machine, EECD, &value), EM_NO_REGISTER);
  REFUSED(em_write(&machine, MDIC, 0), EM_NO_REGISTER);
  em_free(&machine);
  OK(em_make(&machine, MEMORY, BUDGET, MAC));
  profile = 7;
  OK(em_profile(&machine, &profile));
  CHECK(profile == EM_PROFILE_TABLE);
  em_free(&machine);
  CHECK(blocks == 0);
}

/* each call of a handle that holds no machine */
static void refuses_an_empty_handle(void) {
  em_machine machine = EM_NO_MACHINE;
  uint32_t value = 7;
  uint64_t size = 7;
  size_t count = 7;
  uint8_t octets[14] = {7};
  em_note event = {7, 7, 7, 7, 7, 7, 7};
  em_register one = {7, 7};
  em_ring_setup ring = {7, 7, 7, 7, 7, 7};
  em_descriptor descriptor = {{7}, 7};
  em_range ranges[4] = {{7, 7}, {7, 7}, {7, 7}, {7, 7}};
  em_watch watch = {EM_WATCH_LINE, 0, 0, 0};
  em_change change;
  memset(&change, 0, sizeof change);
  change.back = change.value = change.before[15] = 7;
  REFUSED(em_read(&machine, STATUS, &value), EM_NOT_MADE);
  REFUSED(em_write(&machine, IMS, 4), EM_NOT_MADE);
  REFUSED(em_read_sized(&machine, STATUS, 4, &size), EM_NOT_MADE);
  REFUSED(em_write_sized(&machine, IMS, 4, 4), EM_NOT_MADE);
  REFUSED(em_read_sized(&machine, STATUS, 2, &size), EM_WIDTH);
  REFUSED(em_write_sized(&machine, IMS, 2, 4), EM_WIDTH);
  REFUSED(em_look(&machine, STATUS, &value), EM_NOT_MADE);
  REFUSED(em_poke(&machine, 0, octets, 1), EM_NOT_MADE);
  REFUSED(em_peek(&machine, 0, octets, 1), EM_NOT_MADE);
  REFUSED(em_memory_size(&machine, &size), EM_NOT_MADE);
  REFUSED(em_arrive(&machine, octets, 14, &event), EM_NOT_MADE);
  REFUSED(em_set_link(&machine, true), EM_NOT_MADE);
  REFUSED(em_rx_step(&machine, &event), EM_NOT_MADE);
  REFUSED(em_tx_step(&machine, &event), EM_NOT_MADE);
  REFUSED(em_line(&machine, &value), EM_NOT_MADE);
  REFUSED(em_loops(&machine, &value), EM_NOT_MADE);
  REFUSED(em_wire_count(&machine, &count), EM_NOT_MADE);
  REFUSED(em_wire_frame(&machine, 0, octets, 14, &count), EM_NOT_MADE);
  REFUSED(em_wire_next(&machine, octets, 14, &count), EM_NOT_MADE);
  REFUSED(em_let_go(&machine, &count), EM_NOT_MADE);
  REFUSED(em_back(&machine, 1, &count), EM_NOT_MADE);
  REFUSED(em_can_go_back(&machine, &count), EM_NOT_MADE);
  REFUSED(em_run_rx(&machine, 1, &count), EM_NOT_MADE);
  REFUSED(em_run_tx(&machine, 1, &count), EM_NOT_MADE);
  REFUSED(em_sync_out(&machine, octets, 14), EM_NOT_MADE);
  REFUSED(em_sync_in(&machine, octets, 14, &count), EM_NOT_MADE);
  REFUSED(em_registers(&machine, &one, 1, &count), EM_NOT_MADE);
  REFUSED(em_ring(&machine, EM_RX_RING, &ring), EM_NOT_MADE);
  REFUSED(em_ring_descriptor(&machine, EM_RX_RING, 0, &descriptor), EM_NOT_MADE);
  CHECK(ring.count == 7 && descriptor.adapters == 7);
  REFUSED(em_ring_needs(&machine, EM_RX_RING, ranges, ranges + 2), EM_NOT_MADE);
  REFUSED(em_written(&machine, 0, ranges), EM_NOT_MADE);
  REFUSED(em_sync_out_range(&machine, 0, octets, 14), EM_NOT_MADE);
  REFUSED(em_sync_in_range(&machine, 0, octets, 14, &count), EM_NOT_MADE);
  CHECK(ranges[0].length == 7 && ranges[2].length == 7);
  CHECK(one.offset == 7 && one.value == 7);
  REFUSED(em_tag(&machine, 1), EM_NOT_MADE);
  REFUSED(em_event(&machine, 0, &event), EM_NOT_MADE);
  REFUSED(em_last_change(&machine, &watch, &change), EM_NOT_MADE);
  CHECK(change.back == 7 && change.value == 7 && change.before[15] == 7);
  CHECK(value == 7 && size == 7 && count == 7 && octets[0] == 7);
  CHECK(event.tag == 7 && event.at == 7 && event.length == 7 && event.value == 7 && event.kind == 7);
  CHECK(event.octets == 7 && event.buffer == 7);
}

static void reads_and_writes_registers(void) {
  em_machine machine = made();
  uint32_t value = 7;
  REFUSED(em_read(&machine, 0x0004, &value), EM_NO_REGISTER);
  REFUSED(em_write(&machine, 0x0004, 1), EM_NO_REGISTER);
  REFUSED(em_look(&machine, 0x0004, &value), EM_NO_REGISTER);
  CHECK(value == 7 && reach(&machine) == 0);
  CHECK(read_of(&machine, STATUS) == 0x81);
  OK(em_set_link(&machine, true));
  CHECK(read_of(&machine, STATUS) == 0x83);
  OK(em_line(&machine, &value));
  CHECK(value == 0);
  OK(em_write(&machine, IMS, LSC));
  OK(em_line(&machine, &value));
  CHECK(value == 1);
  OK(em_look(&machine, ICR, &value));
  CHECK(value == LSC);
  CHECK(read_of(&machine, ICR) == LSC);
  CHECK(read_of(&machine, ICR) == 0);
  OK(em_line(&machine, &value));
  CHECK(value == 0);
  em_free(&machine);
}

/* by accesses of so many octets: a word is a register's, and nothing else is one */
static void accesses_words_alone(void) {
  static const uint32_t others[] = {0, 1, 2, 3, 5, 8, 16, 0x40000004, UINT32_MAX};
  em_machine machine = made();
  uint64_t value = 7;
  OK(em_set_link(&machine, true));
  for (size_t i = 0; i < sizeof others / sizeof *others; i++) {
    REFUSED(em_read_sized(&machine, ICR, others[i], &value), EM_WIDTH);
    REFUSED(em_write_sized(&machine, IMS, others[i], LSC), EM_WIDTH);
    REFUSED(em_read_sized(&machine, 0x0004, others[i], &value), EM_WIDTH);
  }
  CHECK(value == 7 && reach(&machine) == 1);
  REFUSED(em_read_sized(&machine, 0x0004, 4, &value), EM_NO_REGISTER);
  REFUSED(em_write_sized(&machine, 0x0004, 4, 1), EM_NO_REGISTER);
  CHECK(value == 7 && reach(&machine) == 1);
  OK(em_read_sized(&machine, ICR, 4, &value)); /* as a read does, it clears the causes */
  CHECK(value == LSC && read_of(&machine, ICR) == 0 && reach(&machine) == 3);
  value = UINT64_MAX;
  OK(em_read_sized(&machine, STATUS, 4, &value));
  CHECK(value == 0x83);
  OK(em_write_sized(&machine, RAL0, 4, UINT64_C(0xFEDCBA9812345678)));
  OK(em_read_sized(&machine, RAL0, 4, &value));
  CHECK(value == 0x12345678 && read_of(&machine, RAL0) == 0x12345678);
  em_free(&machine);
}

/* as a look at each offset tells them */
static void lists_registers(void) {
  em_machine machine = made();
  em_register all[EM_REGISTERS];
  size_t count = 7, needed = 7, k = 0;
  uint32_t value;
  memset(all, 9, sizeof all);
  OK(em_write(&machine, RDT, 5));
  REFUSED(em_registers(&machine, all, 3, &needed), EM_ROOM);
  CHECK(all[0].offset == 0x09090909);
  OK(em_registers(&machine, all, EM_REGISTERS, &count));
  CHECK(needed == 4 && count == 4 && all[0].offset == STATUS && all[0].value == 0x81);
  CHECK(all[1].offset == RDT && all[1].value == 5 && all[2].offset == RAL0 && all[3].offset == RAH0);
  for (uint32_t offset = 0; offset < 0x5800; offset += 4) {
    if (em_look(&machine, offset, &value) != EM_OK || value == 0) continue;
    CHECK(k < count && all[k].offset == offset && all[k].value == value);
    k++;
  }
  CHECK(k == count && (count == EM_REGISTERS || all[count].offset == 0x09090909));
  for (uint32_t offset = 0x2800; offset < 0x5800; offset += 4) k += em_write(&machine, offset, UINT32_MAX) == EM_OK;
  for (uint32_t offset = 0x0C0; offset < 0x2800; offset += 4) k += em_write(&machine, offset, UINT32_MAX) == EM_OK;
  CHECK(k > 300);
  OK(em_registers(&machine, all, EM_REGISTERS, &count));
  CHECK(count > 300 && count < EM_REGISTERS);
  em_free(&machine);
}

/* the receive ring of 8 descriptors at 1000h, with head 6 and tail 1: 6, 7 and 0 are the adapter's */
static void tells_whose_a_descriptor_is(void) {
  em_machine machine = made();
  em_ring_setup ring = {7, 7, 7, 7, 7, 7};
  em_descriptor one = {{7}, 7};
  const uint8_t sixth[16] = {0x00, 0x20, 0, 0, 0, 0, 0, 0, 0x3C, 0, 0, 0, 0x07};
  OK(em_ring(&machine, EM_RX_RING, &ring));
  CHECK(ring.base == 0 && ring.count == 0 && ring.head == 0 && ring.tail == 0 && ring.enabled == 0);
  CHECK(ring.buffer == 2048); /* BSIZE 0 */
  REFUSED(em_ring_descriptor(&machine, EM_RX_RING, 0, &one), EM_NO_DESCRIPTOR);
  OK(em_write(&machine, 0x2800, 0x1000));
  OK(em_write(&machine, 0x2804, 0));
  OK(em_write(&machine, 0x2808, 0x80));
  OK(em_write(&machine, 0x2810, 6));
  OK(em_write(&machine, RDT, 1));
  OK(em_write(&machine, 0x100, 0x10002)); /* EN, BSIZE 1 */
  OK(em_poke(&machine, 0x1060, sixth, 16));
  OK(em_ring(&machine, EM_RX_RING, &ring));
  CHECK(ring.base == 0x1000 && ring.count == 8 && ring.head == 6 && ring.tail == 1);
  CHECK(ring.buffer == 1024 && ring.enabled == 1);
  for (uint32_t index = 0; index < 8; index++) {
    OK(em_ring_descriptor(&machine, EM_RX_RING, index, &one));
    CHECK(one.adapters == (index == 6 || index == 7 || index == 0));
    CHECK(memcmp(one.octets, sixth, 16) == 0 || index != 6);
  }
  one.adapters = 7;
  REFUSED(em_ring_descriptor(&machine, EM_RX_RING, 8, &one), EM_NO_DESCRIPTOR);
  REFUSED(em_ring_descriptor(&machine, 0, 0, &one), EM_NO_RING);
  REFUSED(em_ring_descriptor(&machine, 3, 0, &one), EM_NO_RING);
  CHECK(one.adapters == 7);
  /* a head past the ring: all are the driver's */
  OK(em_write(&machine, 0x2810, 10));
  OK(em_write(&machine, RDT, 3));
  for (uint32_t index = 0; index < 8; index++) {
    OK(em_ring_descriptor(&machine, EM_RX_RING, index, &one));
    CHECK(one.adapters == 0);
  }
  /* the last descriptor leaves memory */
  OK(em_write(&machine, 0x3800, MEMORY - 0x70));
  OK(em_write(&machine, 0x3808, 0x80));
  OK(em_write(&machine, 0x3818, 2));
  OK(em_ring(&machine, EM_TX_RING, &ring));
  CHECK(ring.base == MEMORY - 0x70 && ring.count == 8 && ring.head == 0 && ring.tail == 2 && ring.buffer == 0);
  OK(em_ring_descriptor(&machine, EM_TX_RING, 1, &one));
  CHECK(one.adapters == 1);
  OK(em_ring_descriptor(&machine, EM_TX_RING, 6, &one));
  CHECK(one.adapters == 0);
  REFUSED(em_ring_descriptor(&machine, EM_TX_RING, 7, &one), EM_RANGE);
  OK(em_write(&machine, 0x3804, UINT32_MAX)); /* and the ring far past it */
  REFUSED(em_ring_descriptor(&machine, EM_TX_RING, 0, &one), EM_RANGE);
  ring.count = 9;
  REFUSED(em_ring(&machine, 0, &ring), EM_NO_RING);
  REFUSED(em_ring(&machine, 3, &ring), EM_NO_RING);
  CHECK(ring.count == 9);
  em_free(&machine);
}

static void reads_and_writes_memory(void) {
  em_machine machine = made();
  static uint8_t many[16385];
  uint8_t out[5] = {9, 9, 9, 9, 9};
  uint64_t size = 0;
  OK(em_memory_size(&machine, &size));
  CHECK(size == MEMORY);
  OK(em_poke(&machine, 4094, (const uint8_t *)"hello", 5)); /* over two pages */
  OK(em_peek(&machine, 4094, out, 5));
  CHECK(memcmp(out, "hello", 5) == 0);
  REFUSED(em_poke(&machine, MEMORY - 1, out, 2), EM_RANGE);
  REFUSED(em_poke(&machine, UINT64_MAX, out, 5), EM_RANGE);
  REFUSED(em_peek(&machine, MEMORY - 4, out, 5), EM_RANGE);
  REFUSED(em_poke(&machine, 0, out, 0), EM_LENGTH);
  REFUSED(em_poke(&machine, 0, many, 16385), EM_LENGTH);
  CHECK(memcmp(out, "hello", 5) == 0);
  OK(em_poke(&machine, 0, many, 16384));
  OK(em_peek(&machine, MEMORY, out, 0));
  OK(em_peek(&machine, MEMORY - 1, out, 1));
  CHECK(out[0] == 0 && out[1] == 'e');
  em_free(&machine);
}

static void syncs(void) {
  em_machine machine = made();
  static uint8_t ram[MEMORY + 1];
  size_t done;
  memset(ram, 9, sizeof ram);
  REFUSED(em_sync_out(&machine, ram, MEMORY - 1), EM_LENGTH);
  REFUSED(em_sync_out(&machine, ram, MEMORY + 1), EM_LENGTH);
  CHECK(ram[0] == 9);
  OK(em_poke(&machine, 4094, (const uint8_t *)"hello", 5));
  OK(em_sync_out(&machine, ram, MEMORY));
  CHECK(memcmp(ram + 4093, "\0hello", 7) == 0 && ram[MEMORY - 1] == 0 && ram[MEMORY] == 9);
  OK(em_back(&machine, 1, &done));
  OK(em_sync_out(&machine, ram, MEMORY));
  CHECK(ram[4094] == 0 && ram[4098] == 0);
  em_free(&machine);
}

/* What is the same already is not written: pages of the host that hold nothing else are locked. Memory begins in the
   middle of such a page, so that each page of guest memory lies in two of them. */
static void syncs_out_what_differs(void) {
  em_machine machine = made();
  enum { PAGE = 4096, HALF = PAGE / 2, FIRST = 5 * PAGE, LAST = 9 * PAGE - 1 };
  size_t done;
  uint8_t *host = mmap(NULL, MEMORY + PAGE, PROT_READ | PROT_WRITE, MAP_PRIVATE | MAP_ANONYMOUS, -1, 0);
  if (host == MAP_FAILED) exit(2);
  uint8_t *ram = host + HALF;
  OK(em_poke(&machine, FIRST, (const uint8_t *)"first", 5)); /* in the host's page 5; the guest's goes on in 6 */
  OK(em_poke(&machine, LAST, (const uint8_t *)"last", 4));   /* in its page 9, the end of the guest's 8 and more */
  CHECK(mprotect(host, MEMORY + PAGE, PROT_READ) == 0);
  CHECK(mprotect(host + 5 * PAGE, PAGE, PROT_READ | PROT_WRITE) == 0);
  CHECK(mprotect(host + 9 * PAGE, PAGE, PROT_READ | PROT_WRITE) == 0);
  OK(em_sync_out(&machine, ram, MEMORY));
  CHECK(memcmp(ram + FIRST, "first", 6) == 0 && memcmp(ram + LAST, "last", 5) == 0);
  OK(em_back(&machine, 1, &done));
  CHECK(mprotect(host + 5 * PAGE, PAGE, PROT_READ) == 0);
  OK(em_sync_out(&machine, ram, MEMORY));
  CHECK(memcmp(ram + FIRST, "first", 6) == 0 && memcmp(ram + LAST, "\0\0\0", 4) == 0);
  CHECK(mprotect(host + 9 * PAGE, PAGE, PROT_READ) == 0);
  OK(em_sync_out(&machine, ram, MEMORY));
  CHECK(munmap(host, MEMORY + PAGE) == 0);
  em_free(&machine);
}

/* the event is a memory write of so many octets at an address, under a tag */
static bool wrote(em_machine *machine, size_t k, uint64_t at, uint64_t length, uint64_t tag) {
  em_note event;
  OK(em_event(machine, k, &event));
  return event.kind == EM_POKE && event.at == at && event.length == length && event.tag == tag;
}

static void syncs_in(void) {
  em_machine machine = made();
  static uint8_t ram[MEMORY + 1], out[MEMORY];
  size_t writes = 7, back;
  REFUSED(em_sync_in(&machine, ram, MEMORY - 1, &writes), EM_LENGTH);
  REFUSED(em_sync_in(&machine, ram, MEMORY + 1, &writes), EM_LENGTH);
  OK(em_can_go_back(&machine, &back));
  CHECK(writes == 7 && back == 0);
  OK(em_sync_in(&machine, ram, MEMORY, &writes));
  CHECK(writes == 0);
  memset(ram, 9, sizeof ram);
  OK(em_sync_in(&machine, ram, MEMORY, &writes));
  CHECK(writes == MEMORY / 4096 && wrote(&machine, 0, MEMORY - 4096, 4096, 0));
  /* the last octet of a page, the first one of the next, and two with others between them */
  OK(em_tag(&machine, 5));
  ram[4095] = ram[4096] = ram[8193] = ram[8200] = ram[MEMORY - 1] = 1;
  OK(em_sync_in(&machine, ram, MEMORY, &writes));
  CHECK(writes == 4 && wrote(&machine, 3, 4095, 1, 5) && wrote(&machine, 2, 4096, 1, 5));
  CHECK(wrote(&machine, 1, 8193, 8, 5) && wrote(&machine, 0, MEMORY - 1, 1, 5));
  OK(em_peek(&machine, 0, out, MEMORY));
  CHECK(memcmp(out, ram, MEMORY) == 0);
  OK(em_sync_in(&machine, ram, MEMORY, &writes));
  CHECK(writes == 0);
  OK(em_back(&machine, 20, &back));
  OK(em_peek(&machine, 0, out, MEMORY));
  CHECK(back == 20 && out[0] == 0 && out[MEMORY - 1] == 0);
  em_free(&machine);
}

/* memory from an address on: what lies before it, a ring there, and all of it copied in and out */
static void keeps_memory_at_a_base(void) {
  enum { PAGES = 3, SIZE = 4096 * PAGES };
  const uint64_t at = UINT64_C(0x180000000);
  em_machine machine = EM_NO_MACHINE;
  static uint8_t ram[SIZE], out[SIZE];
  uint8_t few[5] = {9, 9, 9, 9, 9};
  size_t writes = 7, back;
  em_note event;
  em_watch watch = {EM_WATCH_OCTETS, 0, at + 4094, 5};
  em_change change;
  OK(em_make_at(&machine, at, SIZE, BUDGET, MAC));
  REFUSED(em_poke(&machine, 0, few, 5), EM_RANGE);
  REFUSED(em_poke(&machine, at - 1, few, 5), EM_RANGE);
  REFUSED(em_poke(&machine, at + SIZE - 4, few, 5), EM_RANGE);
  REFUSED(em_peek(&machine, at - 1, few, 5), EM_RANGE);
  REFUSED(em_sync_out_range(&machine, at - 1, few, 5), EM_RANGE);
  REFUSED(em_sync_in_range(&machine, at - 1, few, 5, &writes), EM_RANGE);
  OK(em_poke(&machine, at + 4094, (const uint8_t *)"hello", 5)); /* over two pages */
  OK(em_peek(&machine, at + 4094, few, 5));
  CHECK(memcmp(few, "hello", 5) == 0);
  OK(em_last_change(&machine, &watch, &change));
  CHECK(change.back == 1 && change.before[0] == 0);
  watch.address = at - 1;
  REFUSED(em_last_change(&machine, &watch, &change), EM_RANGE);
  OK(em_sync_out(&machine, ram, SIZE));
  CHECK(ram[4093] == 0 && memcmp(ram + 4094, "hello", 5) == 0);
  ram[0] = ram[4095] = ram[SIZE - 1] = 7;
  OK(em_sync_in(&machine, ram, SIZE, &writes));
  CHECK(writes == 2 && wrote(&machine, 0, at + SIZE - 1, 1, 0) && wrote(&machine, 1, at, 4096, 0));
  OK(em_peek(&machine, at, out, SIZE));
  CHECK(memcmp(out, ram, SIZE) == 0);
  OK(em_sync_in_range(&machine, at + 8, (const uint8_t *)"x", 1, &writes));
  CHECK(writes == 1 && wrote(&machine, 0, at + 8, 1, 0));
  /* a ring and its buffer there, and a descriptor before memory */
  OK(em_set_link(&machine, true));
  put_descriptor(&machine, at + 0x1000, at + 0x2000, 0, 0);
  OK(em_write(&machine, RDBAL, (uint32_t)(at + 0x1000)));
  OK(em_write(&machine, RDBAL + 4, (uint32_t)(at >> 32)));
  OK(em_write(&machine, RDLEN, 128));
  OK(em_write(&machine, RDT, 7));
  OK(em_write(&machine, RCTL, RCTL_EN | RCTL_UPE | RCTL_BAM));
  fill(ram, 60);
  OK(em_arrive(&machine, ram, 60, &event));
  OK(em_rx_step(&machine, &event));
  CHECK(event.kind == EM_WROTE);
  CHECK(event.at == at + 0x1000 && event.buffer == at + 0x2000 && event.octets == 60);
  OK(em_peek(&machine, at + 0x2000, out, 60));
  CHECK(memcmp(out, ram, 60) == 0);
  OK(em_arrive(&machine, ram, 60, &event));
  OK(em_write(&machine, RDBAL + 4, 0));
  REFUSED(em_rx_step(&machine, &event), EM_DMA_RANGE);
  OK(em_back(&machine, 100, &back));
  OK(em_peek(&machine, at, out, SIZE));
  CHECK(out[0] == 0 && out[4094] == 0 && out[0x2000] == 0);
  em_free(&machine);
}

static void receives(void) {
  em_machine machine = made();
  uint8_t frame[20001], out[60], status[8];
  em_note event = {7, 7, 7, 7, 7, 7, 7};
  fill(frame, sizeof frame);
  REFUSED(em_arrive(&machine, frame, 13, &event), EM_LENGTH);
  REFUSED(em_arrive(&machine, frame, 20001, &event), EM_LENGTH);
  CHECK(event.kind == 7);
  OK(em_arrive(&machine, frame, 60, &event));
  CHECK(event.kind == EM_DOWN && event.length == 60 && event.tag == 0 && event.at == 0 && event.value == 0);
  OK(em_set_link(&machine, true));
  OK(em_arrive(&machine, frame, 60, &event));
  CHECK(event.kind == EM_DISABLED);
  set_receiving(&machine);
  OK(em_rx_step(&machine, &event));
  CHECK(event.kind == EM_RX_IDLE && event.length == 0 && event.at == 0 && event.buffer == 0 && event.octets == 0);
  OK(em_arrive(&machine, frame, 59, &event));
  CHECK(event.kind == EM_UNDERSIZE && event.length == 59);
  OK(em_arrive(&machine, frame, 1519, &event));
  CHECK(event.kind == EM_OVERSIZE);
  frame[0] = 0x01; /* another group address, which no filter lets pass */
  OK(em_arrive(&machine, frame, 60, &event));
  CHECK(event.kind == EM_REJECTED);
  frame[0] = 0xFF;
  OK(em_arrive(&machine, frame, 60, &event));
  CHECK(event.kind == EM_STORED && event.length == 60);
  OK(em_rx_step(&machine, &event));
  CHECK(event.kind == EM_WROTE && event.value == 0 && event.length == 0);
  CHECK(event.at == RX_RING && event.buffer == BUFFER && event.octets == 60);
  OK(em_peek(&machine, BUFFER, out, 60));
  CHECK(memcmp(out, frame, 60) == 0);
  OK(em_peek(&machine, RX_RING + 8, status, 8));
  CHECK(status[0] == 60 && status[1] == 0 && status[4] == 0x07); /* DD, EOP, IXSM */
  CHECK(read_of(&machine, RDH) == 1 && (read_of(&machine, ICR) & RXT0) != 0);
  for (int i = 0; i < 1000; i++) {
    OK(em_arrive(&machine, frame, 1518, &event));
    if (event.kind == EM_MISSED) break;
  }
  CHECK(event.kind == EM_MISSED);
  OK(em_write(&machine, RDBAL, MEMORY));
  REFUSED(em_rx_step(&machine, &event), EM_DMA_RANGE);
  CHECK(event.kind == EM_MISSED);
  em_free(&machine);
}

static void sends(void) {
  em_machine machine = made();
  uint8_t frame[64], out[64];
  size_t count = 7, length = 7;
  em_note event, before;
  fill(frame, sizeof frame);
  OK(em_write(&machine, TDBAL, TX_RING));
  OK(em_write(&machine, TDLEN, 16 * DESCRIPTORS));
  OK(em_write(&machine, TCTL, TCTL_EN));
  OK(em_tx_step(&machine, &event));
  CHECK(event.kind == EM_TX_IDLE);
  OK(em_poke(&machine, BUFFER, frame, 64));
  put_descriptor(&machine, TX_RING, BUFFER, 20, 0);
  put_descriptor(&machine, TX_RING + 16, BUFFER + 20, 44, EOP | RS);
  put_descriptor(&machine, TX_RING + 32, BUFFER, 64, EOP | DEXT);
  put_descriptor(&machine, TX_RING + 48, BUFFER, 16381, EOP);
  put_descriptor(&machine, TX_RING + 64, MEMORY - 63, 64, EOP);
  OK(em_write(&machine, TDT, 2));
  OK(em_wire_count(&machine, &count));
  CHECK(count == 0);
  REFUSED(em_wire_frame(&machine, 0, out, 64, &length), EM_NO_FRAME);
  CHECK(length == 7);
  OK(em_tx_step(&machine, &event));
  CHECK(event.kind == EM_FETCHED && event.value == 0 && event.length == 0);
  CHECK(event.at == TX_RING && event.buffer == BUFFER && event.octets == 20);
  OK(em_tx_step(&machine, &event));
  CHECK(event.kind == EM_SENT && event.value == 1 && event.length == 64);
  CHECK(event.at == TX_RING + 16 && event.buffer == BUFFER + 20 && event.octets == 44);
  OK(em_event(&machine, 1, &before));
  CHECK(before.kind == EM_FETCHED && before.at == TX_RING && before.buffer == BUFFER && before.octets == 20);
  OK(em_wire_count(&machine, &count));
  CHECK(count == 1 && read_of(&machine, TDH) == 2);
  CHECK(read_of(&machine, ICR) == (TXDW | TXQE));
  memset(out, 9, sizeof out);
  REFUSED(em_wire_frame(&machine, 0, out, 63, &length), EM_ROOM);
  CHECK(length == 64 && out[0] == 9);
  OK(em_wire_frame(&machine, 0, out, 64, &length));
  CHECK(length == 64 && memcmp(out, frame, 64) == 0);
  OK(em_write(&machine, TDT, 7));
  REFUSED(em_tx_step(&machine, &event), EM_EXTENDED);
  OK(em_write(&machine, TDH, 3));
  REFUSED(em_tx_step(&machine, &event), EM_TOO_LONG);
  OK(em_write(&machine, TDH, 4));
  REFUSED(em_tx_step(&machine, &event), EM_DMA_RANGE);
  CHECK(event.kind == EM_SENT);
  em_free(&machine);
}

/* sends the packet of the next descriptor: its octets are all `octet` */
static void send_packet(em_machine *machine, uint32_t index, size_t length, uint8_t octet) {
  uint8_t octets[100];
  em_note event;
  memset(octets, octet, sizeof octets);
  OK(em_poke(machine, BUFFER, octets, length));
  put_descriptor(machine, TX_RING + 16 * index, BUFFER, (unsigned)length, EOP);
  OK(em_write(machine, TDT, (index + 1) % DESCRIPTORS));
  OK(em_tx_step(machine, &event));
  CHECK(event.kind == EM_SENT && event.length == length);
}

static bool is_next(em_machine *machine, size_t length, uint8_t octet) {
  uint8_t out[100] = {0};
  size_t told = 7;
  return em_wire_next(machine, out, sizeof out, &told) == EM_OK && told == length && out[0] == octet
    && out[length - 1] == octet && (length == sizeof out || out[length] == 0);
}

static bool is_none_next(em_machine *machine) {
  uint8_t out[100] = {9};
  size_t told = 7;
  return em_wire_next(machine, out, sizeof out, &told) == EM_NO_FRAME && told == 7 && out[0] == 9;
}

/* each frame once, also behind steps back */
static void hands_frames_over(void) {
  em_machine machine = made();
  uint8_t out[100];
  size_t length = 7, done, events = 4; /* of one frame that is sent: two memory writes, a write of TDT, a step */
  OK(em_write(&machine, TDBAL, TX_RING));
  OK(em_write(&machine, TDLEN, 16 * DESCRIPTORS));
  OK(em_write(&machine, TCTL, TCTL_EN));
  CHECK(is_none_next(&machine));
  send_packet(&machine, 0, 60, 1);
  send_packet(&machine, 1, 61, 2);
  send_packet(&machine, 2, 62, 3);
  OK(em_wire_frame(&machine, 2, out, sizeof out, &length)); /* a look hands nothing over */
  size_t before = reach(&machine);
  memset(out, 9, sizeof out);
  REFUSED(em_wire_next(&machine, out, 59, &length), EM_ROOM);
  CHECK(length == 60 && out[0] == 9);
  REFUSED(em_wire_next(&machine, out, 0, &length), EM_ROOM);
  CHECK(is_next(&machine, 60, 1) && is_next(&machine, 61, 2));
  CHECK(reach(&machine) == before);
  /* back to before the third frame, of which nothing was handed over: it is sent once more, and comes once */
  OK(em_back(&machine, events, &done));
  CHECK(is_none_next(&machine));
  send_packet(&machine, 2, 63, 4);
  CHECK(is_next(&machine, 63, 4) && is_none_next(&machine));
  /* back to before the second: what is sent from there is new */
  OK(em_back(&machine, 2 * events, &done));
  CHECK(done == 2 * events && is_none_next(&machine));
  send_packet(&machine, 1, 64, 5);
  send_packet(&machine, 2, 65, 6);
  CHECK(is_next(&machine, 64, 5));
  OK(em_back(&machine, 1, &done)); /* the step alone, whose frame was not handed over */
  CHECK(is_none_next(&machine));
  OK(em_run_tx(&machine, 9, &done));
  CHECK(done == 1 && is_next(&machine, 65, 6) && is_none_next(&machine));
  OK(em_back(&machine, SIZE_MAX, &done));
  CHECK(reach(&machine) == 0 && is_none_next(&machine));
  em_free(&machine);
  OK(em_make(&machine, MEMORY, BUDGET, MAC)); /* another machine's wire is another one */
  CHECK(is_none_next(&machine));
  em_free(&machine);
}

/* as many frames were let go */
static bool lets_go(em_machine *machine, size_t count) {
  size_t told = 7;
  return em_let_go(machine, &told) == EM_OK && told == count;
}

static bool is_frame(em_machine *machine, size_t index, size_t length, uint8_t octet) {
  uint8_t out[100] = {0};
  size_t told = 7;
  return em_wire_frame(machine, index, out, sizeof out, &told) == EM_OK && told == length && out[0] == octet;
}

/* frames that no step back reaches keep their places, and no octet */
static void lets_frames_go(void) {
  em_machine machine = EM_NO_MACHINE;
  size_t count, done;
  OK(em_make(&machine, MEMORY, 65536, MAC)); /* so the journal has 2048 events of the least cost */
  OK(em_write(&machine, TDBAL, TX_RING));
  OK(em_write(&machine, TDLEN, 16 * DESCRIPTORS));
  OK(em_write(&machine, TCTL, TCTL_EN));
  CHECK(lets_go(&machine, 0));
  send_packet(&machine, 0, 60, 1);
  send_packet(&machine, 1, 61, 2);
  CHECK(lets_go(&machine, 0) && is_frame(&machine, 0, 60, 1) && is_frame(&machine, 1, 61, 2));
  CHECK(is_next(&machine, 60, 1));
  for (int i = 0; i < 2048; i++) (void)read_of(&machine, STATUS);
  size_t before = reach(&machine);
  CHECK(before == 2048 && lets_go(&machine, 2) && reach(&machine) == before);
  OK(em_wire_count(&machine, &count));
  CHECK(count == 2 && is_frame(&machine, 0, 0, 0) && is_frame(&machine, 1, 0, 0) && is_none_next(&machine));
  /* a frame that is sent then is the third, and one that steps back reach stays */
  send_packet(&machine, 2, 62, 3);
  CHECK(lets_go(&machine, 2) && is_frame(&machine, 1, 0, 0) && is_frame(&machine, 2, 62, 3));
  CHECK(is_next(&machine, 62, 3) && is_none_next(&machine));
  OK(em_back(&machine, 1, &done));
  OK(em_wire_count(&machine, &count));
  CHECK(done == 1 && count == 2 && lets_go(&machine, 2));
  OK(em_run_tx(&machine, 9, &done));
  CHECK(done == 1 && is_frame(&machine, 2, 62, 3) && is_next(&machine, 62, 3));
  OK(em_back(&machine, SIZE_MAX, &done));
  CHECK(reach(&machine) == 0 && is_frame(&machine, 0, 0, 0));
  OK(em_wire_count(&machine, &count));
  CHECK(count == 2 && lets_go(&machine, 2) && is_none_next(&machine));
  em_free(&machine);
}

/* so many frames are sent, each handed over and asked after; how many of them have octets still */
static size_t kept_of(em_machine *machine, int first, int frames) {
  size_t kept = 0, length;
  uint8_t none;
  for (int i = first; i < first + frames; i++) {
    send_packet(machine, (uint32_t)i % DESCRIPTORS, 60, (uint8_t)i);
    CHECK(is_next(machine, 60, (uint8_t)i) && is_none_next(machine));
  }
  for (int i = 0; i < first + frames; i++) kept += em_wire_frame(machine, (size_t)i, &none, 0, &length) == EM_ROOM;
  return kept;
}

/* the setting: only what was handed over goes, in lots, and no step back misses its frame */
static void lets_frames_go_always(void) {
  em_machine machine = EM_NO_MACHINE, copy = EM_NO_MACHINE;
  size_t events, done, sent;
  REFUSED(em_let_go_always(&machine, true), EM_NOT_MADE);
  OK(em_make(&machine, MEMORY, 65536, MAC));
  OK(em_write(&machine, TDBAL, TX_RING));
  OK(em_write(&machine, TDLEN, 16 * DESCRIPTORS));
  OK(em_write(&machine, TCTL, TCTL_EN));
  CHECK(kept_of(&machine, 0, 4000) == 4000);
  OK(em_let_go_always(&machine, true));
  events = reach(&machine);
  CHECK(events < 4000 - EM_MOST_KEPT && is_none_next(&machine));
  CHECK(kept_of(&machine, 4000, 4000) <= reach(&machine) + EM_MOST_KEPT);
  OK(em_copy(&machine, &copy));
  /* frames that wait to be handed over stay, however many they are */
  for (int i = 0; i < 4000; i++) send_packet(&machine, (uint32_t)i % DESCRIPTORS, 61, (uint8_t)i);
  for (int i = 0; i < 4000; i++) CHECK(is_next(&machine, 61, (uint8_t)i));
  CHECK(is_none_next(&machine));
  /* the frames that steps back take off have their octets, and what is sent again is handed over */
  OK(em_back(&machine, SIZE_MAX, &done));
  OK(em_wire_count(&machine, &sent));
  CHECK(done > 0 && sent < 12000 && kept_of(&machine, (int)sent, 1) >= 1);
  OK(em_let_go_always(&copy, false));
  CHECK(kept_of(&copy, 8000, 3000) >= 3000);
  em_free(&copy);
  em_free(&machine);
  OK(em_make(&machine, MEMORY, 65536, MAC)); /* another machine has not the setting */
  OK(em_write(&machine, TDBAL, TX_RING));
  OK(em_write(&machine, TDLEN, 16 * DESCRIPTORS));
  OK(em_write(&machine, TCTL, TCTL_EN));
  CHECK(kept_of(&machine, 0, 4000) == 4000);
  em_free(&machine);
}

static void goes_back(void) {
  em_machine machine = made();
  size_t done = 7;
  uint32_t value = 7;
  OK(em_back(&machine, 5, &done));
  CHECK(done == 0);
  OK(em_set_link(&machine, true));
  OK(em_write(&machine, IMS, LSC));
  CHECK(read_of(&machine, ICR) == LSC);
  CHECK(reach(&machine) == 3);
  OK(em_back(&machine, 1, &done));
  OK(em_look(&machine, ICR, &value));
  CHECK(done == 1 && value == LSC && reach(&machine) == 2);
  OK(em_back(&machine, 0, &done));
  CHECK(done == 0 && reach(&machine) == 2);
  OK(em_back(&machine, 99, &done));
  CHECK(done == 2 && reach(&machine) == 0 && read_of(&machine, STATUS) == 0x81);
  em_free(&machine);
}

/* steps until an engine has nothing to do, or is refused */
static void runs_the_engines(void) {
  em_machine machine = made();
  uint8_t frame[60];
  size_t done = 7;
  em_note event;
  fill(frame, sizeof frame);
  set_receiving(&machine);
  for (int i = 0; i < 3; i++) OK(em_arrive(&machine, frame, 60, &event));
  OK(em_run_rx(&machine, 2, &done));
  CHECK(done == 2 && read_of(&machine, RDH) == 2);
  OK(em_run_rx(&machine, 2, &done));
  CHECK(done == 1 && read_of(&machine, RDH) == 3);
  OK(em_run_rx(&machine, 0, &done));
  CHECK(done == 0);
  OK(em_write(&machine, TDBAL, TX_RING));
  OK(em_write(&machine, TDLEN, 16 * DESCRIPTORS));
  OK(em_write(&machine, TCTL, TCTL_EN));
  put_descriptor(&machine, TX_RING, BUFFER, 60, EOP);
  put_descriptor(&machine, TX_RING + 16, BUFFER, 60, EOP | DEXT);
  OK(em_write(&machine, TDT, 2));
  REFUSED(em_run_tx(&machine, 9, &done), EM_EXTENDED);
  CHECK(done == 1 && read_of(&machine, TDH) == 1);
  OK(em_write(&machine, TDT, 1));
  OK(em_run_tx(&machine, 9, &done));
  CHECK(done == 0);
  em_free(&machine);
}

/* which event did what, and under which tag */
static void tells_who_did_it(void) {
  em_machine machine = made();
  em_note event = {7, 7, 7, 7, 7, 7, 7};
  em_watch watch = {EM_WATCH_REGISTER, RDT, 0, 0};
  em_change change;
  memset(&change, 7, sizeof change);
  REFUSED(em_event(&machine, 0, &event), EM_NO_EVENT);
  REFUSED(em_last_change(&machine, &watch, &change), EM_NO_CHANGE);
  CHECK(event.kind == 7 && change.before[0] == 7);
  OK(em_tag(&machine, 0x123456789ABCDEF0));
  OK(em_write(&machine, RDT, 5));
  OK(em_tag(&machine, 42));
  OK(em_poke(&machine, 0x1234, (const uint8_t *)"abc", 3));
  CHECK(read_of(&machine, RDT) == 5);
  OK(em_set_link(&machine, true));
  OK(em_event(&machine, 0, &event));
  CHECK(event.kind == EM_LINK_UP && event.tag == 42 && event.at == 0 && event.length == 0 && event.value == 0);
  OK(em_event(&machine, 1, &event));
  CHECK(event.kind == EM_READ && event.at == RDT && event.length == 4 && event.value == 5);
  OK(em_event(&machine, 2, &event));
  CHECK(event.kind == EM_POKE && event.at == 0x1234 && event.length == 3 && event.value == 0);
  OK(em_event(&machine, 3, &event));
  CHECK(event.kind == EM_WRITE && event.at == RDT && event.value == 5 && event.tag == 0x123456789ABCDEF0);
  REFUSED(em_event(&machine, 4, &event), EM_NO_EVENT);
  OK(em_last_change(&machine, &watch, &change));
  CHECK(change.back == 4 && change.value == 0);
  watch.kind = EM_WATCH_OCTETS, watch.address = 0x1236, watch.octets = 2;
  OK(em_last_change(&machine, &watch, &change));
  CHECK(change.back == 3 && change.value == 0 && change.before[0] == 0 && change.before[15] == 0);
  watch.kind = EM_WATCH_LINK;
  OK(em_last_change(&machine, &watch, &change));
  CHECK(change.back == 1 && change.value == 0);
  watch.kind = EM_WATCH_LINE;
  REFUSED(em_last_change(&machine, &watch, &change), EM_NO_CHANGE);
  watch.kind = EM_WATCH_FRAMES;
  REFUSED(em_last_change(&machine, &watch, &change), EM_NO_CHANGE);
  watch.kind = EM_WATCH_SENT;
  REFUSED(em_last_change(&machine, &watch, &change), EM_NO_CHANGE);
  watch.kind = EM_WATCH_PHY; /* RDT is no word of it; and of a PHY that nothing reaches none changes */
  REFUSED(em_last_change(&machine, &watch, &change), EM_NO_REGISTER);
  watch.offset = 17;
  REFUSED(em_last_change(&machine, &watch, &change), EM_NO_CHANGE);
  watch.kind = 8;
  REFUSED(em_last_change(&machine, &watch, &change), EM_NO_WATCH);
  watch.kind = EM_WATCH_REGISTER, watch.offset = 4;
  REFUSED(em_last_change(&machine, &watch, &change), EM_NO_REGISTER);
  watch.kind = EM_WATCH_OCTETS, watch.octets = 17;
  REFUSED(em_last_change(&machine, &watch, &change), EM_LENGTH);
  watch.octets = 0;
  REFUSED(em_last_change(&machine, &watch, &change), EM_LENGTH);
  /* octets outside guest memory: nobody can have changed them, and a mistyped address is told as one */
  memset(&change, 7, sizeof change);
  watch.octets = 2, watch.address = MEMORY - 2;
  REFUSED(em_last_change(&machine, &watch, &change), EM_NO_CHANGE);
  watch.address = MEMORY - 1;
  REFUSED(em_last_change(&machine, &watch, &change), EM_RANGE);
  watch.address = UINT64_MAX;
  REFUSED(em_last_change(&machine, &watch, &change), EM_RANGE);
  CHECK(change.back == 0x0707070707070707 && change.before[0] == 7);
  em_free(&machine);
}

/* which event changed a word of the PHY, as a read of it by MDIC gives it */
static void tells_who_changed_the_phy(void) {
  enum { MDIC = 0x20 };
  em_machine machine = EM_NO_MACHINE;
  em_watch watch = {EM_WATCH_PHY, 9, 0, 0};
  em_change change;
  OK(em_make_as(&machine, EM_PROFILE_ADAPTER, 0, MEMORY, BUDGET, MAC));
  REFUSED(em_last_change(&machine, &watch, &change), EM_NO_CHANGE);
  OK(em_write(&machine, MDIC, 0x04291234)); /* 1234 in word 9, which was 0E00 at power on */
  OK(em_set_link(&machine, true));
  OK(em_write(&machine, MDIC, 0x08290000)); /* a read, which changes no word */
  OK(em_last_change(&machine, &watch, &change));
  CHECK(change.back == 3 && change.value == 0x0E00);
  watch.offset = 17; /* with a link it has bit 10 too */
  OK(em_last_change(&machine, &watch, &change));
  CHECK(change.back == 2 && change.value == 0xA800);
  watch.offset = 1;
  OK(em_last_change(&machine, &watch, &change));
  CHECK(change.back == 2 && change.value == 0x7949);
  OK(em_set_link(&machine, false));
  OK(em_last_change(&machine, &watch, &change));
  CHECK(change.back == 1 && change.value == 0x796D);
  watch.offset = 31;
  REFUSED(em_last_change(&machine, &watch, &change), EM_NO_CHANGE);
  watch.offset = 32;
  REFUSED(em_last_change(&machine, &watch, &change), EM_NO_REGISTER);
  watch.offset = UINT32_MAX;
  REFUSED(em_last_change(&machine, &watch, &change), EM_NO_REGISTER);
  CHECK(change.back == 1 && change.value == 0x796D);
  em_free(&machine);
}

static bool has_text(const uint8_t *room, size_t length, const char *text) {
  return length == strlen(text) && memcmp(room, text, length) == 0;
}

static void names_registers_and_refusals(void) {
  uint8_t room[80];
  size_t length = 7;
  uint32_t offset = 7;
  memset(room, 9, sizeof room);
  OK(em_name(ICR, room, sizeof room, &length));
  CHECK(has_text(room, length, "ICR") && !strcmp((const char *)room, "ICR") && room[4] == 9);
  OK(em_name(0x5200 + 4 * 127, room, 9, &length));
  CHECK(has_text(room, length, "MTA[127]") && !strcmp((const char *)room, "MTA[127]") && room[9] == 9);
  room[0] = 9;
  REFUSED(em_name(0x5200 + 4 * 127, room, 8, &length), EM_ROOM);
  CHECK(length == 8 && room[0] == 9);
  REFUSED(em_name(4, room, 8, &length), EM_NO_REGISTER);
  OK(em_find((const uint8_t *)"rah15", 5, &offset));
  CHECK(offset == 0x547C);
  REFUSED(em_find((const uint8_t *)"RAH16", 5, &offset), EM_NO_NAME);
  REFUSED(em_find((const uint8_t *)"", 0, &offset), EM_NO_NAME);
  CHECK(offset == 0x547C);
  OK(em_refusal(EM_RANGE, room, sizeof room, &length));
  CHECK(has_text(room, length, "Range: the octets leave guest memory") && room[36] == 0);
  REFUSED(em_refusal(EM_RANGE, room, 36, &length), EM_ROOM);
  CHECK(length == 36);
  OK(em_refusal(EM_RANGE, room, 37, &length));
  REFUSED(em_refusal(EM_OK, room, sizeof room, &length), EM_NO_REFUSAL);
  REFUSED(em_refusal(7, room, sizeof room, &length), EM_NO_REFUSAL);
  for (uint32_t code = 0, known = 0; code < 1000; code++) {
    known += em_refusal(code, room, sizeof room, &length) == EM_OK;
    if (code == 999) CHECK(known == 45); /* as many as enum em_code has, without EM_OK */
  }
}

/* The texts that stay are those that are copied. */
static void tells_texts(void) {
  uint8_t room[80];
  size_t length;
  for (uint32_t code = 0; code < 1000; code++) {
    bool is_one = em_refusal(code, room, sizeof room, &length) == EM_OK;
    const char *text = em_strerror((em_code)code);
    if (is_one) CHECK(!strcmp(text, (const char *)room));
    else MUST(!strcmp(text, code == EM_OK ? "Ok: nothing refused it" : "Unknown: no refusal has the number"));
  }
  CHECK(!strcmp(em_strerror(EM_CODE_WIDE), "Unknown: no refusal has the number"));
  CHECK(!strcmp(em_version(), EM_VERSION));
}

/* How many octets each layout has where a pointer has 8, by the sizes of its fields: a program that was compiled with
   another one has to find its own calls (docs/team/DECISIONS.md). */
static void has_its_layouts(void) {
  if (sizeof(void *) != 8) return;
  CHECK(sizeof(em_code) == 4 && sizeof(em_region) == 24 && sizeof(em_ram) == 40 && sizeof(em_machine) == 64);
  CHECK(sizeof(em_note) == 40 && sizeof(em_register) == 8 && sizeof(em_ring_setup) == 32);
  CHECK(sizeof(em_descriptor) == 20 && sizeof(em_range) == 16 && sizeof(em_watch) == 24 && sizeof(em_change) == 32);
  CHECK(sizeof(em_reason) == 328 && sizeof(em_warning) == 296 && sizeof(em_entry) == 312);
  CHECK(sizeof(em_pcap) == 16 && sizeof(em_pcap_frame) == 16);
  CHECK(sizeof(em_fifo_state) == 32 && sizeof(em_field_row) == 24 && sizeof(em_difference) == 72);
}

/* ---- a machine like another one */

/* Both tell the same, and so they do behind each step back, up to the first event. */
static void go_back_alike(em_machine *one, em_machine *other) {
  static uint8_t octets[2][MEMORY];
  em_note notes[2];
  size_t counts[2], done;
  do {
    OK(em_can_go_back(one, &counts[0]));
    OK(em_can_go_back(other, &counts[1]));
    CHECK(counts[0] == counts[1]);
    OK(em_peek(one, 0, octets[0], MEMORY));
    OK(em_peek(other, 0, octets[1], MEMORY));
    CHECK(memcmp(octets[0], octets[1], MEMORY) == 0);
    for (uint32_t offset = 0; offset < 0x5900; offset += 4) {
      uint32_t values[2] = {7, 7};
      MUST(em_look(one, offset, &values[0]) == em_look(other, offset, &values[1]) && values[0] == values[1]);
    }
    OK(em_wire_count(one, &done));
    OK(em_wire_count(other, &counts[1]));
    CHECK(done == counts[1]);
    if (counts[0] == 0) return;
    OK(em_event(one, 0, &notes[0]));
    OK(em_event(other, 0, &notes[1]));
    CHECK(notes[0].tag == notes[1].tag && notes[0].at == notes[1].at && notes[0].kind == notes[1].kind);
    OK(em_back(one, 1, &done));
    OK(em_back(other, 1, &done));
  } while (done == 1);
  CHECK(done == 1);
}

static void copies(void) {
  em_machine machine = EM_NO_MACHINE, copy = EM_NO_MACHINE, third = EM_NO_MACHINE;
  static uint8_t frame[1500], out[2048];
  em_note event;
  size_t n;
  REFUSED(em_copy(&machine, &copy), EM_NOT_MADE);
  REFUSED(em_copy(&machine, &machine), EM_NOT_MADE);
  CHECK(!machine.made && !copy.made);
  machine = made();
  REFUSED(em_copy(&machine, &machine), EM_MADE_ALREADY);
  set_receiving(&machine);
  OK(em_tag(&machine, 5));
  for (int i = 0; i < 3; i++) OK(em_arrive(&machine, frame, 700, &event));
  OK(em_rx_step(&machine, &event));
  /* a packet is sent and handed over; the octets of another one are gathered */
  OK(em_poke(&machine, BUFFER, frame, 1500));
  put_descriptor(&machine, TX_RING, BUFFER, 500, EOP | RS);
  put_descriptor(&machine, TX_RING + 16, BUFFER, 500, 0);
  put_descriptor(&machine, TX_RING + 32, BUFFER, 300, EOP | RS);
  OK(em_write(&machine, TDBAL, TX_RING));
  OK(em_write(&machine, TDLEN, 16 * DESCRIPTORS));
  OK(em_write(&machine, TCTL, TCTL_EN));
  OK(em_write(&machine, TDT, 3));
  OK(em_tx_step(&machine, &event));
  OK(em_wire_next(&machine, out, sizeof out, &n));
  CHECK(n == 500);
  OK(em_tx_step(&machine, &event));
  OK(em_copy(&machine, &copy));
  REFUSED(em_copy(&machine, &copy), EM_MADE_ALREADY);
  OK(em_copy(&copy, &third));
  CHECK(machine.made && copy.made && third.made);
  /* the first one goes on alone, */
  OK(em_tx_step(&machine, &event));
  OK(em_rx_step(&machine, &event));
  OK(em_poke(&machine, BUFFER, MAC, 6));
  OK(em_wire_count(&copy, &n));
  CHECK(n == 1);
  OK(em_peek(&copy, BUFFER, out, 6));
  CHECK(memcmp(out, frame, 6) == 0);
  /* and the copy does the same later, under the same tag, and hands over what the first one has not */
  OK(em_tx_step(&copy, &event));
  CHECK(event.kind == EM_SENT && event.tag == 5 && event.length == 800);
  OK(em_rx_step(&copy, &event));
  OK(em_poke(&copy, BUFFER, MAC, 6));
  OK(em_wire_next(&copy, out, sizeof out, &n));
  CHECK(n == 800);
  go_back_alike(&machine, &copy);
  /* it goes back by itself, and outlives the others */
  OK(em_can_go_back(&machine, &n));
  CHECK(n == 0);
  em_free(&machine);
  em_free(&copy);
  CHECK(!machine.made && !copy.made);
  OK(em_back(&third, SIZE_MAX, &n));
  CHECK(n > 20 && read_of(&third, TDT) == 0);
  em_free(&third);
  CHECK(blocks == 0);
}

static void has_many_machines(void) {
  em_machine machines[3] = {EM_NO_MACHINE, EM_NO_MACHINE, EM_NO_MACHINE};
  for (int i = 0; i < 3; i++) OK(em_make(&machines[i], 4096, 65536, MAC));
  OK(em_set_link(&machines[1], true));
  CHECK(read_of(&machines[0], STATUS) == 0x81);
  CHECK(read_of(&machines[1], STATUS) == 0x83);
  CHECK(read_of(&machines[2], STATUS) == 0x81);
  for (int i = 0; i < 3; i++) em_free(&machines[i]);
  CHECK(blocks == 0);
}

int main(void) {
  makes_and_frees();
  makes_at_a_base();
  makes_of_a_profile();
  refuses_an_empty_handle();
  reads_and_writes_registers();
  accesses_words_alone();
  lists_registers();
  tells_whose_a_descriptor_is();
  reads_and_writes_memory();
  syncs();
  syncs_out_what_differs();
  syncs_in();
  keeps_memory_at_a_base();
  receives();
  sends();
  hands_frames_over();
  lets_frames_go();
  lets_frames_go_always();
  goes_back();
  runs_the_engines();
  tells_who_did_it();
  tells_who_changed_the_phy();
  names_registers_and_refusals();
  tells_texts();
  has_its_layouts();
  has_many_machines();
  copies();
  return tell_counts();
}
