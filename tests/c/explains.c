/* What explains: why events did nothing, warnings, rings, effects and the FIFO. The numbers and the texts were worked
   out from the manual's tables and from the texts of docs/debugger.md. The last line is `N passed, M failed`. */
#include "harness.h"

static const uint8_t NONE[1] = {0};

static bool is_filled(const uint8_t *octets, uint8_t with, size_t length) {
  for (size_t i = 0; i < length; i++) {
    if (octets[i] != with) return false;
  }
  return true;
}

/* a struct whose text is this, and zeros behind it */
static bool has_line(const char line[256], const char *text) {
  size_t length = strlen(text);
  return memcmp(line, text, length) == 0 && is_filled((const uint8_t *)line + length, 0, 256 - length);
}

static em_reason why(em_machine *machine, em_note event, uint32_t code, const uint8_t *octets, size_t length) {
  em_reason reason;
  memset(&reason, 7, sizeof reason);
  OK(em_why(machine, &event, code, octets, length, &reason));
  return reason;
}

/* a note of an event that was refused */
static em_note asked(uint32_t kind, uint64_t at) {
  em_note event = {0, 0, 0, 0, 0, 0, 0};
  event.kind = kind;
  event.at = at;
  return event;
}

static bool is_rule(em_reason reason, uint32_t rule, uint32_t index, uint32_t count, const char *text) {
  return reason.rule == rule && reason.index == index && reason.count == count && has_line(reason.text, text);
}

/* ---- steps that were idle */

static em_reason why_rx(em_machine *machine) {
  em_note event;
  OK(em_rx_step(machine, &event));
  CHECK(event.kind == EM_RX_IDLE);
  return why(machine, event, EM_OK, NONE, 0);
}

static em_reason why_tx(em_machine *machine) {
  em_note event;
  OK(em_tx_step(machine, &event));
  CHECK(event.kind == EM_TX_IDLE);
  return why(machine, event, EM_OK, NONE, 0);
}

static void explains_idle_steps(void) {
  em_machine machine = made();
  em_note event;
  size_t before;
  CHECK(is_rule(why_rx(&machine), EM_WHY_RX_DISABLED, 0, 0, "RCTL.EN is clear"));
  CHECK(is_rule(why_tx(&machine), EM_WHY_TX_DISABLED, 0, 0, "TCTL.EN is clear"));
  OK(em_write(&machine, RCTL, RCTL_EN));
  OK(em_write(&machine, TCTL, TCTL_EN));
  CHECK(is_rule(why_rx(&machine), EM_WHY_RX_NO_RING, 0, 0, "the ring has no descriptor (RDLEN = 0)"));
  CHECK(is_rule(why_tx(&machine), EM_WHY_TX_NO_RING, 0, 0, "the ring has no descriptor (TDLEN = 0)"));
  OK(em_write(&machine, RDLEN, 128));
  OK(em_write(&machine, TDLEN, 128));
  OK(em_write(&machine, RDH, 3));
  OK(em_write(&machine, RDT, 3));
  OK(em_write(&machine, TDH, 5));
  OK(em_write(&machine, TDT, 5));
  CHECK(is_rule(why_rx(&machine), EM_WHY_RX_EMPTY, 3, 0, "the ring is empty (RDH = RDT = 3)"));
  CHECK(is_rule(why_tx(&machine), EM_WHY_TX_EMPTY, 5, 0, "the ring is empty (TDH = TDT = 5)"));
  OK(em_write(&machine, RDT, 4));
  CHECK(is_rule(why_rx(&machine), EM_WHY_RX_NO_FRAME, 0, 0, "no frame waits"));
  OK(em_write(&machine, RDT, 16));
  OK(em_write(&machine, TDT, 8));
  CHECK(is_rule(why_rx(&machine), EM_WHY_RX_TAIL_PAST, 16, 8, "RDT 16 is past the ring of 8"));
  CHECK(is_rule(why_tx(&machine), EM_WHY_TX_TAIL_PAST, 8, 8, "TDT 8 is past the ring of 8"));
  OK(em_write(&machine, RDH, 9));
  OK(em_write(&machine, TDH, 10));
  CHECK(is_rule(why_rx(&machine), EM_WHY_RX_HEAD_PAST, 9, 8, "RDH 9 is past the ring of 8"));
  CHECK(is_rule(why_tx(&machine), EM_WHY_TX_HEAD_PAST, 10, 8, "TDH 10 is past the ring of 8"));
  /* of an event that did something there is no reason, and it is no event to ask */
  OK(em_set_link(&machine, true));
  OK(em_event(&machine, 0, &event));
  before = reach(&machine);
  em_reason none = why(&machine, event, EM_OK, NONE, 0);
  CHECK(none.rule == EM_WHY_NO_RULE && is_filled((const uint8_t *)none.text, 0, 256));
  CHECK(none.address == 0 && none.octets == 0 && none.index == 0 && is_filled(none.to, 0, 6));
  CHECK(why(&machine, asked(18, 0), EM_OK, NONE, 0).rule == EM_WHY_NO_RULE);
  CHECK(why(&machine, asked(EM_READ, 4), EM_NOT_MADE, NONE, 0).rule == EM_WHY_NO_RULE);
  CHECK(why(&machine, asked(EM_READ, UINT64_C(0x100000004)), EM_NO_REGISTER, NONE, 0).rule == EM_WHY_NO_RULE);
  CHECK(reach(&machine) == before);
  em_free(&machine);
}

/* ---- frames that were dropped */

static em_reason why_frame(em_machine *machine, const uint8_t *frame, size_t length, uint32_t kind) {
  em_note event;
  OK(em_arrive(machine, frame, length, &event));
  CHECK(event.kind == kind);
  return why(machine, event, EM_OK, frame, length);
}

static void explains_drops(void) {
  em_machine machine = made();
  uint8_t frame[1600];
  em_reason reason;
  em_note event;
  fill(frame, sizeof frame);
  CHECK(is_rule(why_frame(&machine, frame, 60, EM_DOWN), EM_WHY_FRAME_DOWN, 0, 0, "the link is down"));
  OK(em_set_link(&machine, true));
  CHECK(is_rule(why_frame(&machine, frame, 60, EM_DISABLED), EM_WHY_FRAME_DISABLED, 0, 0, "RCTL.EN is clear"));
  OK(em_write(&machine, RCTL, RCTL_EN));
  /* the hash of FF:FF:FF:FF:FF:FF is FFFh: word 127, bit 31 */
  reason = why_frame(&machine, frame, 60, EM_REJECTED);
  CHECK(reason.rule == EM_WHY_FRAME_BROADCAST && reason.value == 0xFFF && is_filled(reason.to, 0xFF, 6));
  CHECK(has_line(reason.text,
    "FF:FF:FF:FF:FF:FF is in no filter (MTA[127] bit 31 is clear, MPE is clear, BAM is clear)"));
  /* RCTL.MO is 0: bits 47 to 36 of 01:00:5E:00:10:A5 are A51h: word 82, bit 17 */
  memcpy(frame, "\x01\x00\x5E\x00\x10\xA5", 6);
  reason = why_frame(&machine, frame, 60, EM_REJECTED);
  CHECK(reason.rule == EM_WHY_FRAME_MULTICAST && reason.value == 0xA51 && memcmp(reason.to, frame, 6) == 0);
  CHECK(has_line(reason.text, "01:00:5E:00:10:A5 is in no filter (MTA[82] bit 17 is clear, MPE is clear)"));
  memcpy(frame, "\x02\x00\x00\x00\x00\x01", 6);
  reason = why_frame(&machine, frame, 60, EM_REJECTED);
  CHECK(reason.rule == EM_WHY_FRAME_UNICAST && reason.value == 0 && memcmp(reason.to, frame, 6) == 0);
  CHECK(has_line(reason.text, "02:00:00:00:00:01 is in no filter (no valid RAL and RAH has it, UPE is clear)"));
  OK(em_write(&machine, RCTL, RCTL_EN | RCTL_UPE));
  reason = why_frame(&machine, frame, 20, EM_UNDERSIZE);
  CHECK(reason.rule == EM_WHY_FRAME_UNDERSIZE && reason.octets == 24 && reason.most == 64);
  CHECK(has_line(reason.text, "24 octets with the FCS are below 64"));
  reason = why_frame(&machine, frame, 1519, EM_OVERSIZE);
  CHECK(reason.rule == EM_WHY_FRAME_OVERSIZE && reason.octets == 1523 && reason.most == 1522);
  CHECK(has_line(reason.text, "1523 octets with the FCS are above 1522, LPE is clear"));
  /* a tag of VLAN 5, with RCTL.VFE (bit 18) set */
  memcpy(frame + 12, "\x81\x00\x00\x05", 4);
  OK(em_write(&machine, VET, 0x8100));
  OK(em_write(&machine, RCTL, RCTL_EN | RCTL_UPE | 1 << 18));
  reason = why_frame(&machine, frame, 64, EM_REJECTED);
  CHECK(reason.rule == EM_WHY_FRAME_VLAN && reason.value == 5);
  CHECK(has_line(reason.text, "VLAN 5 is not in VFTA[0] (bit 5 is clear)"));
  OK(em_write(&machine, RCTL, RCTL_EN | RCTL_UPE));
  for (int i = 0; i < 32; i++) OK(em_arrive(&machine, frame, 1518, &event)); /* 48,576 of 49,152 octets */
  CHECK(event.kind == EM_STORED);
  reason = why_frame(&machine, frame, 1000, EM_MISSED);
  CHECK(reason.rule == EM_WHY_FRAME_MISSED && reason.octets == 1000 && reason.most == 32);
  CHECK(has_line(reason.text, "the FIFO has no room for 1000 octets more (frames that wait: 32)"));
  em_free(&machine);
}

static void explains_drops_of_the_second_profile(void) {
  em_machine machine = {0};
  uint8_t frame[64] = {0};
  em_reason reason;
  OK(em_make_as(&machine, EM_PROFILE_ADAPTER, 0, MEMORY, BUDGET, MAC));
  OK(em_set_link(&machine, true));
  OK(em_write(&machine, RCTL, RCTL_EN));
  memcpy(frame, "\x01\x80\xC2\x00\x00\x01", 6);
  memcpy(frame + 12, "\x88\x08\x00\x02", 4); /* a MAC control frame; bits 47 to 36 of its destination are 010h */
  reason = why_frame(&machine, frame, 60, EM_REJECTED);
  CHECK(reason.rule == EM_WHY_FRAME_CONTROL && reason.value == 0x010 && memcmp(reason.to, frame, 6) == 0);
  CHECK(has_line(reason.text, "a MAC control frame to 01:80:C2:00:00:01, which is in no filter (PMCF is clear)"));
  OK(em_write(&machine, RCTL, RCTL_EN | 1 << 4 | 1 << 22)); /* MPE and DPF */
  frame[15] = 1;
  reason = why_frame(&machine, frame, 60, EM_REJECTED);
  CHECK(reason.rule == EM_WHY_FRAME_PAUSE && reason.value == 0 && has_line(reason.text, "a pause frame (DPF is set)"));
  OK(em_write(&machine, RCTL, RCTL_EN | 1 << 4 | 1 << 19)); /* MPE and CFIEN */
  memcpy(frame + 12, "\x81\x00\x10\x05", 4);
  reason = why_frame(&machine, frame, 60, EM_REJECTED);
  CHECK(reason.rule == EM_WHY_FRAME_CFI && reason.value == 1);
  CHECK(has_line(reason.text, "the CFI of its tag is 1 (CFIEN is set, CFI is clear)"));
  OK(em_write(&machine, RCTL, RCTL_EN | 1 << 4 | 3 << 19)); /* and CFI */
  frame[14] = 0;
  reason = why_frame(&machine, frame, 60, EM_REJECTED);
  CHECK(reason.rule == EM_WHY_FRAME_CFI && reason.value == 0);
  CHECK(has_line(reason.text, "the CFI of its tag is 0 (CFIEN is set, CFI is set)"));
  em_free(&machine);
}

/* ---- events that were refused */

static void explains_refusals(void) {
  em_machine machine = made();
  uint8_t frame[20001];
  em_reason reason;
  em_note event;
  uint32_t value;
  fill(frame, sizeof frame);
  REFUSED(em_read(&machine, 0x0004, &value), EM_NO_REGISTER);
  reason = why(&machine, asked(EM_READ, 4), EM_NO_REGISTER, NONE, 0);
  CHECK(reason.rule == EM_WHY_NO_REGISTER && reason.address == 4);
  CHECK(has_line(reason.text, "no register lies at 000004"));
  REFUSED(em_write(&machine, 0xFFFFFFFF, 1), EM_NO_REGISTER);
  reason = why(&machine, asked(EM_WRITE, 0xFFFFFFFF), EM_NO_REGISTER, NONE, 0);
  CHECK(has_line(reason.text, "no register lies at FFFFFFFF"));
  REFUSED(em_poke(&machine, 0xFFFA, frame, 16), EM_RANGE);
  reason = why(&machine, asked(EM_POKE, 0xFFFA), EM_RANGE, frame, 16);
  CHECK(reason.rule == EM_WHY_WRITE_RANGE && reason.address == 0xFFFA && reason.octets == 16);
  CHECK(reason.memory == MEMORY && has_line(reason.text, "16 octets at 00FFFA, memory ends at 010000"));
  REFUSED(em_poke(&machine, 0, frame, 0), EM_LENGTH);
  reason = why(&machine, asked(EM_POKE, 0), EM_LENGTH, frame, 0);
  CHECK(reason.rule == EM_WHY_WRITE_LENGTH && has_line(reason.text, "0 octets are not 1 to 16384"));
  REFUSED(em_arrive(&machine, frame, 20001, &event), EM_LENGTH);
  reason = why(&machine, asked(EM_STORED, 0), EM_LENGTH, frame, 20001);
  CHECK(reason.rule == EM_WHY_FRAME_LENGTH && reason.octets == 20001);
  CHECK(has_line(reason.text, "20001 octets are not 14 to 20000"));
  reason = why(&machine, asked(EM_WROTE, 0), EM_MEMORY, NONE, 0);
  CHECK(is_rule(reason, EM_WHY_MEMORY, 0, 0, "the host has no memory for it"));
  CHECK(reach(&machine) == 0);
  em_free(&machine);
}

static void explains_refused_steps(void) {
  em_machine machine = made();
  uint8_t frame[60];
  em_reason reason;
  em_note event;
  fill(frame, sizeof frame);
  set_receiving(&machine);
  OK(em_arrive(&machine, frame, 60, &event));
  /* 2,048 octets of a buffer of which 8 lie in memory, for a frame of 60 */
  put_descriptor(&machine, RX_RING, MEMORY - 8, 0, 0);
  REFUSED(em_rx_step(&machine, &event), EM_DMA_RANGE);
  reason = why(&machine, asked(EM_WROTE, 0), EM_DMA_RANGE, NONE, 0);
  CHECK(reason.rule == EM_WHY_RX_BUFFER && reason.index == 0 && reason.address == RX_RING);
  CHECK(reason.buffer == MEMORY - 8 && reason.most == 2048 && reason.octets == 60 && reason.memory == MEMORY);
  CHECK(has_line(reason.text,
    "descriptor 0 at 001000, buffer 00FFF8 of 2048 octets for a frame of 60, memory ends at 010000"));
  OK(em_write(&machine, RDBAL, MEMORY));
  REFUSED(em_rx_step(&machine, &event), EM_DMA_RANGE);
  CHECK(is_rule(why(&machine, asked(EM_WROTE, 0), EM_DMA_RANGE, NONE, 0), EM_WHY_RX_DESCRIPTOR, 0, 0,
    "descriptor 0 at 010000, memory ends at 010000"));
  put_descriptor(&machine, TX_RING, BUFFER, 60, DEXT);
  OK(em_write(&machine, TDBAL, TX_RING));
  OK(em_write(&machine, TDLEN, 128));
  OK(em_write(&machine, TCTL, TCTL_EN));
  OK(em_write(&machine, TDT, 4));
  REFUSED(em_tx_step(&machine, &event), EM_EXTENDED);
  CHECK(is_rule(why(&machine, asked(EM_FETCHED, 0), EM_EXTENDED, NONE, 0), EM_WHY_TX_EXTENDED, 0, 0,
    "descriptor 0 at 002000 is extended (DEXT)"));
  put_descriptor(&machine, TX_RING, BUFFER, 16381, EOP);
  REFUSED(em_tx_step(&machine, &event), EM_TOO_LONG);
  reason = why(&machine, asked(EM_FETCHED, 0), EM_TOO_LONG, NONE, 0);
  CHECK(reason.rule == EM_WHY_TX_TOO_LONG && reason.octets == 16381);
  CHECK(has_line(reason.text,
    "descriptor 0 at 002000: its 16381 octets with those gathered before are above 16380"));
  put_descriptor(&machine, TX_RING, MEMORY - 8, 60, EOP);
  REFUSED(em_tx_step(&machine, &event), EM_DMA_RANGE);
  reason = why(&machine, asked(EM_FETCHED, 0), EM_DMA_RANGE, NONE, 0);
  CHECK(reason.rule == EM_WHY_TX_BUFFER && reason.buffer == MEMORY - 8 && reason.octets == 60);
  CHECK(has_line(reason.text, "descriptor 0 at 002000, buffer 00FFF8 of 60 octets, memory ends at 010000"));
  /* the ring at the end of all addresses: its descriptor 15 lies at 2^64 - 16 */
  OK(em_write(&machine, TDBAL, 0xFFFFFF00));
  OK(em_write(&machine, 0x3804, 0xFFFFFFFF));
  OK(em_write(&machine, TDLEN, 512));
  OK(em_write(&machine, TDH, 16));
  OK(em_write(&machine, TDT, 20));
  REFUSED(em_tx_step(&machine, &event), EM_DMA_RANGE);
  reason = why(&machine, asked(EM_FETCHED, 0), EM_DMA_RANGE, NONE, 0);
  CHECK(reason.rule == EM_WHY_TX_DESCRIPTOR && reason.index == 16 && reason.address == UINT64_MAX);
  CHECK(has_line(reason.text, "descriptor 16 at 010000000000000000, memory ends at 010000"));
  em_free(&machine);
}

static void explains_memory_at_a_base(void) {
  em_machine machine = EM_NO_MACHINE;
  const uint64_t at = 0x180000000;
  uint8_t text[4096];
  em_entry entry;
  em_reason reason;
  size_t length;
  OK(em_make_at(&machine, at, MEMORY, BUDGET, MAC));
  REFUSED(em_poke(&machine, at - 1, NONE, 1), EM_RANGE);
  reason = why(&machine, asked(EM_POKE, at - 1), EM_RANGE, NONE, 1);
  CHECK(reason.rule == EM_WHY_WRITE_RANGE && reason.base == at && reason.memory == MEMORY);
  CHECK(has_line(reason.text, "1 octets at 017FFFFFFF, memory begins at 0180000000 and ends at 0180010000"));
  /* a ring there; the buffer of its first descriptor is not, nor is the second ring */
  put_descriptor(&machine, at + RX_RING, BUFFER, 0, 0);
  OK(em_write(&machine, RDBAL, (uint32_t)at + RX_RING));
  OK(em_write(&machine, RDBAL + 4, (uint32_t)(at >> 32)));
  OK(em_write(&machine, RDLEN, 128));
  OK(em_write(&machine, RDT, 1));
  OK(em_ring_entry(&machine, EM_RX_RING, 0, &entry));
  CHECK(entry.address == at + RX_RING && entry.trouble == EM_TROUBLE_BUFFER_OUTSIDE);
  OK(em_ring_text(&machine, EM_RX_RING, text, sizeof text, &length));
  CHECK(strstr((const char *)text, "at 0180001000") != NULL);
  OK(em_write(&machine, RDBAL + 4, 0));
  OK(em_ring_entry(&machine, EM_RX_RING, 0, &entry));
  CHECK(entry.trouble == EM_TROUBLE_OUTSIDE);
  em_free(&machine);
}

/* ---- warnings */

static size_t warns(em_machine *machine, em_warning warnings[10]) {
  size_t count = 11;
  memset(warnings, 7, 10 * sizeof *warnings);
  OK(em_warnings(machine, warnings, &count));
  for (size_t i = count; i < 10; i++) CHECK(warnings[i].rule == 0 && has_line(warnings[i].text, ""));
  return count;
}

static void warns_of_accesses(void) {
  em_machine machine = made();
  em_warning all[10];
  CHECK(warns(&machine, all) == 0);
  /* an IMS that lets RXT0 through without a ring */
  OK(em_write(&machine, IMS, RXT0));
  CHECK(warns(&machine, all) == 1 && all[0].rule == EM_WARN_INTERRUPTS_BEFORE_RINGS);
  CHECK(all[0].offset == RDLEN && all[0].causes == RXT0);
  CHECK(has_line(all[0].text,
    "warning interrupts-before-rings: IMS lets 00000080 through while RDLEN is 0, set up the ring first"));
  OK(em_write(&machine, RCTL, RCTL_EN));
  CHECK(warns(&machine, all) == 1 && all[0].rule == EM_WARN_ENABLED_BEFORE_RING && all[0].offset == RCTL);
  CHECK(has_line(all[0].text, "warning enabled-before-ring: RCTL.EN is set while RDLEN is 0, set up the ring first"));
  OK(em_write(&machine, RDBAL, RX_RING));
  OK(em_write(&machine, RDLEN, 129)); /* which is kept as 128, of bits 7 to 19 */
  CHECK(warns(&machine, all) == 1 && all[0].rule == EM_WARN_BITS_DROPPED && all[0].offset == RDLEN);
  CHECK(all[0].kept == 128 && all[0].written == 129);
  CHECK(has_line(all[0].text, "warning bits-dropped: RDLEN keeps 00000080 of 00000081, its bits are 000FFF80"));
  OK(em_write(&machine, RDT, 8));
  CHECK(warns(&machine, all) == 1 && all[0].rule == EM_WARN_TAIL_PAST_RING && all[0].index == 8 && all[0].count == 8);
  CHECK(has_line(all[0].text, "warning tail-past-ring: RDT 8 is past the ring of 8, write an index below that"));
  put_descriptor(&machine, RX_RING, BUFFER, 0, 0);
  CHECK(warns(&machine, all) == 0);
  OK(em_poke(&machine, RX_RING + 16 + 12, (const uint8_t[]){DD}, 1));
  OK(em_write(&machine, RDT, 3));
  /* descriptor 1 has DD, descriptor 2 is all zeros, and both name a buffer at 0: the rules in their order */
  CHECK(warns(&machine, all) == 3 && all[0].rule == EM_WARN_DESCRIPTOR_UNWRITTEN && all[1].rule == EM_WARN_STATUS_LEFT);
  CHECK(all[0].index == 2 && all[0].address == RX_RING + 32 && all[1].index == 1 && all[1].address == RX_RING + 16);
  CHECK(all[2].rule == EM_WARN_BUFFERS_OVERLAP && all[2].index == 1 && all[2].address == RX_RING + 16);
  CHECK(has_line(all[0].text,
    "warning descriptor-unwritten: RDT gives the adapter descriptor 2 at 001020, all zeros, write it first"));
  CHECK(has_line(all[1].text,
    "warning status-left: RDT gives the adapter descriptor 1 at 001010 with DD set, clear its status first"));
  /* of the newest event alone */
  CHECK(read_of(&machine, STATUS) == 0x81 && warns(&machine, all) == 0);
  CHECK(reach(&machine) == 9);
  em_free(&machine);
}

/* RXT0 is read, and then ICR again while the frame still waits */
static void warns_of_a_read(void) {
  em_machine machine = made();
  uint8_t frame[60];
  em_warning all[10];
  em_note event;
  fill(frame, sizeof frame);
  set_receiving(&machine);
  OK(em_arrive(&machine, frame, 60, &event));
  OK(em_rx_step(&machine, &event));
  uint32_t causes = read_of(&machine, ICR);
  CHECK((causes & RXT0) != 0 && warns(&machine, all) == 0);
  CHECK(read_of(&machine, STATUS) == 0x83 && warns(&machine, all) == 0);
  CHECK(read_of(&machine, ICR) == 0);
  CHECK(warns(&machine, all) == 1 && all[0].rule == EM_WARN_READ_AGAIN && all[0].offset == ICR);
  CHECK(all[0].causes == causes);
  em_free(&machine);
}

/* ---- rings, effects and the FIFO */

/* a text, with a zero behind it; less room than that is refused, and the length is told */
#define TELLS(call, text) \
  do { \
    uint8_t out[8192]; \
    size_t room = sizeof text, length = 12345; \
    memset(out, 7, sizeof out); \
    OK(call); \
    CHECK(length == sizeof text - 1 && memcmp(out, text, sizeof text) == 0); \
    CHECK(is_filled(out + room, 7, sizeof out - room)); \
    memset(out, 7, sizeof out); \
    room--; \
    length = 12345; \
    REFUSED(call, EM_ROOM); \
    CHECK(length == sizeof text - 1 && is_filled(out, 7, sizeof out)); \
  } while (0)

static void tells_of_rings(void) {
  em_machine machine = made();
  em_entry entry;
  uint8_t octets[1];
  size_t n = 7;
  memset(&entry, 7, sizeof entry);
  REFUSED(em_ring_entry(&machine, 0, 0, &entry), EM_NO_RING);
  REFUSED(em_ring_entry(&machine, EM_TX_RING, 0, &entry), EM_NO_DESCRIPTOR);
  REFUSED(em_ring_text(&machine, 3, octets, 1, &n), EM_NO_RING);
  CHECK(is_filled((const uint8_t *)&entry, 7, sizeof entry) && n == 7);
  TELLS(em_ring_text(&machine, EM_TX_RING, out, room, &length), "tx ring at 000000  no descriptors  disabled\n");
  OK(em_write(&machine, TDBAL, TX_RING));
  OK(em_write(&machine, TDLEN, 128));
  OK(em_write(&machine, TDT, 2));
  put_descriptor(&machine, TX_RING, BUFFER, 60, EOP | RS);
  put_descriptor(&machine, TX_RING + 16, MEMORY - 8, 60, DEXT);
  OK(em_ring_entry(&machine, EM_TX_RING, 0, &entry));
  CHECK(entry.address == TX_RING && entry.buffer == BUFFER && entry.index == 0 && entry.length == 60);
  CHECK(entry.command == (EOP | RS) && entry.status == 0 && entry.errors == 0 && entry.adapters == 1);
  CHECK(entry.head == 1 && entry.tail == 0 && entry.trouble == 0 && entry.other == 0);
  OK(em_ring_entry(&machine, EM_TX_RING, 1, &entry));
  CHECK(entry.adapters == 1 && entry.head == 0 && entry.trouble == EM_TROUBLE_EXTENDED);
  OK(em_ring_entry(&machine, EM_TX_RING, 2, &entry));
  CHECK(entry.adapters == 0 && entry.tail == 1 && entry.trouble == 0 && entry.length == 0);
  REFUSED(em_ring_entry(&machine, EM_TX_RING, 8, &entry), EM_NO_DESCRIPTOR);
  /* one buffer lies over another, over the ring, and outside memory */
  put_descriptor(&machine, TX_RING + 16, BUFFER + 59, 60, EOP);
  OK(em_ring_entry(&machine, EM_TX_RING, 1, &entry));
  CHECK(entry.trouble == EM_TROUBLE_OVER_BUFFER && entry.other == 0);
  OK(em_ring_entry(&machine, EM_TX_RING, 0, &entry));
  CHECK(entry.trouble == EM_TROUBLE_OVER_BUFFER && entry.other == 1);
  put_descriptor(&machine, TX_RING + 16, TX_RING + 127, 1, EOP);
  OK(em_ring_entry(&machine, EM_TX_RING, 1, &entry));
  CHECK(entry.trouble == EM_TROUBLE_OVER_RING);
  put_descriptor(&machine, TX_RING + 16, MEMORY - 8, 9, EOP);
  OK(em_ring_entry(&machine, EM_TX_RING, 1, &entry));
  CHECK(entry.trouble == EM_TROUBLE_BUFFER_OUTSIDE);
  put_descriptor(&machine, TX_RING + 16, BUFFER, 0, EOP);
  OK(em_ring_entry(&machine, EM_TX_RING, 1, &entry));
  CHECK(entry.trouble == EM_TROUBLE_NO_LENGTH);
  put_descriptor(&machine, TX_RING + 16, 0x4100, 16381, EOP);
  OK(em_ring_entry(&machine, EM_TX_RING, 1, &entry));
  CHECK(entry.trouble == EM_TROUBLE_TOO_LONG);
  /* of one outside memory only the place is known */
  OK(em_write(&machine, TDBAL, MEMORY - 16));
  OK(em_ring_entry(&machine, EM_TX_RING, 1, &entry));
  CHECK(entry.address == MEMORY && entry.trouble == EM_TROUBLE_OUTSIDE && entry.buffer == 0 && entry.adapters == 1);
  CHECK(strstr(entry.text, " at 010000  it lies outside memory") != NULL);
  em_free(&machine);
}

static void tells_of_effects(void) {
  em_machine machine = made();
  uint8_t octets[1];
  size_t n = 7;
  REFUSED(em_effect(&machine, 0, octets, 1, &n), EM_NO_EVENT);
  CHECK(n == 7);
  OK(em_write(&machine, IMS, LSC));
  OK(em_set_link(&machine, true));
  OK(em_poke(&machine, 0x1234, (const uint8_t *)"ab", 2));
  TELLS(em_effect(&machine, 0, out, room, &length), "  001234  0000 -> 6162\n");
  TELLS(em_effect(&machine, 2, out, room, &length), "  IMS  00000000 -> 00000004 LSC\n");
  OK(em_write(&machine, IMS, LSC));
  TELLS(em_effect(&machine, 0, out, room, &length), "  changed nothing\n");
  REFUSED(em_effect(&machine, 4, octets, 1, &n), EM_NO_EVENT);
  REFUSED(em_effect(&machine, SIZE_MAX, octets, 1, &n), EM_NO_EVENT);
  CHECK(reach(&machine) == 4);
  em_free(&machine);
}

static bool is_difference(em_difference d, uint32_t kind, uint32_t offset, uint64_t value, uint64_t now) {
  return d.kind == kind && d.offset == offset && d.value == value && d.now == now && d.address == 0 && d.octets == 0
    && is_filled(d.before, 0, 16) && is_filled(d.after, 0, 16);
}

static void tells_of_differences(void) {
  em_machine machine = made();
  em_difference all[8];
  uint8_t octets[20];
  size_t n = 7;
  memset(all, 7, sizeof all);
  memset(octets, 9, sizeof octets);
  REFUSED(em_differences(&machine, 0, all, 8, &n), EM_NO_EVENT);
  CHECK(n == 7 && is_filled((const uint8_t *)all, 7, sizeof all));
  OK(em_write(&machine, IMS, LSC));
  OK(em_differences(&machine, 0, all, 1, &n));
  CHECK(n == 1 && is_difference(all[0], EM_WATCH_REGISTER, IMS, 0, LSC));
  CHECK(is_filled((const uint8_t *)(all + 1), 7, sizeof *all));
  OK(em_write(&machine, IMS, LSC));
  OK(em_differences(&machine, 0, all, 0, &n));
  CHECK(n == 0);
  /* the link: STATUS.LU is bit 1, LSC is a cause that is let through */
  OK(em_set_link(&machine, true));
  memset(all, 7, sizeof all);
  REFUSED(em_differences(&machine, 0, all, 3, &n), EM_ROOM);
  CHECK(n == 4 && is_filled((const uint8_t *)all, 7, sizeof all));
  OK(em_differences(&machine, 0, all, 8, &n));
  CHECK(n == 4 && is_difference(all[0], EM_WATCH_REGISTER, STATUS, 0x81, 0x83));
  CHECK(is_difference(all[1], EM_WATCH_REGISTER, ICR, 0, LSC));
  CHECK(is_difference(all[2], EM_WATCH_LINE, 0, 0, 1) && is_difference(all[3], EM_WATCH_LINK, 0, 0, 1));
  /* 20 octets are 16 and 4 */
  OK(em_poke(&machine, 0x1234, octets, 20));
  OK(em_differences(&machine, 0, all, 8, &n));
  CHECK(n == 2 && all[0].kind == EM_WATCH_OCTETS && all[0].address == 0x1234 && all[0].octets == 16);
  CHECK(is_filled(all[0].before, 0, 16) && is_filled(all[0].after, 9, 16) && all[0].value == 0 && all[0].now == 0);
  CHECK(all[1].address == 0x1244 && all[1].octets == 4 && is_filled(all[1].after, 9, 4));
  CHECK(is_filled(all[1].after + 4, 0, 12) && is_filled(all[1].before, 0, 16));
  em_free(&machine);
}

static void tells_of_the_fifo(void) {
  em_machine machine = made();
  uint8_t frame[64], room[64];
  em_fifo_state fifo;
  em_note event;
  size_t length = 7;
  memset(&fifo, 7, sizeof fifo);
  OK(em_fifo(&machine, &fifo));
  CHECK(fifo.frames == 0 && fifo.octets == 0 && fifo.gathered == 0 && fifo.tagged == 0 && fifo.tag == 0);
  OK(em_fifo_frame(&machine, room, 0, &length));
  CHECK(length == 0);
  TELLS(em_fifo_text(&machine, out, room, &length), "no frame waits\n");
  fill(frame, sizeof frame);
  memcpy(frame + 12, "\x81\x00\x60\x05", 4);
  set_receiving(&machine);
  OK(em_write(&machine, VET, 0x8100));
  OK(em_write(&machine, CTRL, CTRL_VME));
  OK(em_arrive(&machine, frame, 64, &event));
  OK(em_arrive(&machine, frame, 64, &event));
  OK(em_fifo(&machine, &fifo));
  CHECK(fifo.frames == 2 && fifo.octets == 60 && fifo.tagged == 1 && fifo.tag == 0x6005);
  memset(room, 7, sizeof room);
  REFUSED(em_fifo_frame(&machine, room, 59, &length), EM_ROOM);
  CHECK(length == 60 && is_filled(room, 7, 64));
  OK(em_fifo_frame(&machine, room, 64, &length));
  CHECK(length == 60 && memcmp(room, frame, 12) == 0 && memcmp(room + 12, frame + 16, 48) == 0);
  CHECK(is_filled(room + 60, 7, 4));
  OK(em_gathered(&machine, room, 0, &length));
  CHECK(length == 0);
  /* a descriptor without EOP: its octets are gathered */
  OK(em_poke(&machine, BUFFER, frame, 5));
  put_descriptor(&machine, TX_RING, BUFFER, 5, 0);
  OK(em_write(&machine, TDBAL, TX_RING));
  OK(em_write(&machine, TDLEN, 128));
  OK(em_write(&machine, TCTL, TCTL_EN));
  OK(em_write(&machine, TDT, 1));
  OK(em_tx_step(&machine, &event));
  CHECK(event.kind == EM_FETCHED);
  OK(em_fifo(&machine, &fifo));
  CHECK(fifo.gathered == 5);
  memset(room, 7, sizeof room);
  REFUSED(em_gathered(&machine, room, 4, &length), EM_ROOM);
  CHECK(length == 5 && is_filled(room, 7, 64));
  OK(em_gathered(&machine, room, 64, &length));
  CHECK(length == 5 && memcmp(room, frame, 5) == 0 && is_filled(room + 5, 7, 59));
  em_free(&machine);
}

static void names_bits_and_fields(void) {
  em_field_row field;
  uint8_t octets[1];
  size_t length = 7;
  memset(&field, 7, sizeof field);
  REFUSED(em_field(0x0004, 0, &field), EM_NO_REGISTER);
  REFUSED(em_value_text(0x0004, 0, octets, 1, &length), EM_NO_REGISTER);
  CHECK(is_filled((const uint8_t *)&field, 7, sizeof field) && length == 7);
  /* RCTL: EN is bit 1, and its first; BSIZE has bits 17 and 16, and is its tenth; SECRC is bit 26, and its last */
  OK(em_field(RCTL, 0, &field));
  CHECK(field.mask == 2 && field.lowest == 2 && memcmp(field.name, "EN\0\0\0\0\0\0\0\0\0\0\0\0\0\0", 16) == 0);
  OK(em_field(RCTL, 9, &field));
  CHECK(field.mask == 0x30000 && field.lowest == 0x10000 && strcmp(field.name, "BSIZE") == 0);
  OK(em_field(RCTL, 16, &field));
  CHECK(field.mask == 0x4000000 && field.lowest == 0x4000000 && strcmp(field.name, "SECRC") == 0);
  OK(em_field(RCTL, 17, &field));
  CHECK(is_filled((const uint8_t *)&field, 0, sizeof field));
  OK(em_field(RCTL, SIZE_MAX, &field));
  CHECK(field.mask == 0);
  OK(em_field(RDT, 0, &field));
  CHECK(field.mask == 0);
  OK(em_field(CTRL, 9, &field)); /* the longest name: bit 21 */
  CHECK(field.mask == 0x200000 && strcmp(field.name, "EN_PHY_PWR_MGMT") == 0);
  TELLS(em_value_text(RCTL, 0x8002, out, room, &length), "RCTL 00008002 EN BAM BSIZE=2048");
  TELLS(em_value_text(RDT, 0x10, out, room, &length), "RDT 00000010");
  TELLS(em_value_text(ICR, 0x84, out, room, &length), "ICR 00000084 LSC RXT0");
}

/* ---- a handle that holds no machine */

static void refuses_an_empty_handle(void) {
  em_machine machine = EM_NO_MACHINE;
  em_note event = {0, 0, 0, 0, EM_RX_IDLE, 0, 0};
  em_reason reason;
  em_warning warnings[10];
  em_entry entry;
  em_fifo_state fifo;
  uint8_t octets[4] = {7, 7, 7, 7};
  size_t n = 7;
  memset(&reason, 7, sizeof reason);
  memset(warnings, 7, sizeof warnings);
  memset(&entry, 7, sizeof entry);
  memset(&fifo, 7, sizeof fifo);
  REFUSED(em_why(&machine, &event, EM_OK, octets, 0, &reason), EM_NOT_MADE);
  REFUSED(em_warnings(&machine, warnings, &n), EM_NOT_MADE);
  REFUSED(em_ring_entry(&machine, EM_RX_RING, 0, &entry), EM_NOT_MADE);
  REFUSED(em_ring_text(&machine, EM_RX_RING, octets, 4, &n), EM_NOT_MADE);
  REFUSED(em_effect(&machine, 0, octets, 4, &n), EM_NOT_MADE);
  REFUSED(em_fifo(&machine, &fifo), EM_NOT_MADE);
  REFUSED(em_fifo_frame(&machine, octets, 4, &n), EM_NOT_MADE);
  REFUSED(em_gathered(&machine, octets, 4, &n), EM_NOT_MADE);
  REFUSED(em_fifo_text(&machine, octets, 4, &n), EM_NOT_MADE);
  CHECK(is_filled((const uint8_t *)&reason, 7, sizeof reason));
  CHECK(is_filled((const uint8_t *)warnings, 7, sizeof warnings));
  CHECK(is_filled((const uint8_t *)&entry, 7, sizeof entry) && is_filled((const uint8_t *)&fifo, 7, sizeof fifo));
  CHECK(is_filled(octets, 7, 4) && n == 7);
}

/* what has room: 49,152 octets are 32 frames of 1,518, and 576 octets */
static void tells_what_has_room(void) {
  em_machine machine = made();
  uint8_t frame[1518];
  size_t room = 7, steps;
  em_note event;
  fill(frame, sizeof frame);
  set_receiving(&machine);
  OK(em_fifo_room(&machine, &room));
  CHECK(room == 49152);
  for (size_t i = 1; i <= 32; i++) {
    OK(em_arrive(&machine, frame, 1518, &event));
    OK(em_fifo_room(&machine, &room));
    CHECK(event.kind == EM_STORED && room == 49152 - i * 1518);
  }
  CHECK(room == 576);
  OK(em_arrive(&machine, frame, 577, &event));
  CHECK(event.kind == EM_MISSED);
  memcpy(frame + 12, (uint8_t[]){0x81, 0x00, 0x01, 0x23}, 4);
  OK(em_write(&machine, VET, 0x8100));
  OK(em_write(&machine, CTRL, CTRL_VME)); /* the tag is taken out: 576 octets are stored */
  OK(em_arrive(&machine, frame, 580, &event));
  OK(em_fifo_room(&machine, &room));
  CHECK(event.kind == EM_STORED && room == 0);
  OK(em_arrive(&machine, frame, 64, &event));
  CHECK(event.kind == EM_MISSED);
  OK(em_rx_step(&machine, &event)); /* the first frame goes, whole: its buffer has 2,048 octets */
  OK(em_fifo_room(&machine, &room));
  CHECK(event.kind == EM_WROTE && room == 1518);
  OK(em_back(&machine, 1, &steps));
  OK(em_fifo_room(&machine, &room));
  CHECK(room == 0);
  em_free(&machine);
  REFUSED(em_fifo_room(&machine, &room), EM_NOT_MADE);
  CHECK(room == 0);
}

int main(void) {
  explains_idle_steps();
  explains_drops();
  explains_drops_of_the_second_profile();
  explains_refusals();
  explains_refused_steps();
  explains_memory_at_a_base();
  warns_of_accesses();
  warns_of_a_read();
  tells_of_rings();
  tells_of_effects();
  tells_of_differences();
  tells_of_the_fifo();
  names_bits_and_fields();
  refuses_an_empty_handle();
  tells_what_has_room();
  return tell_counts();
}
