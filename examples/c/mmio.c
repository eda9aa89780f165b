/* The adapter behind a virtual machine: the callbacks of its register window, the guest's memory, which it reads and
   writes by itself, its interrupt line, and frames from a file.

       cc -I. mmio.c libbunjelav.a -o mmio && ./mmio frames.txt

   A virtual machine calls bar_read and bar_write where its guest touches the window, and deliver where its network has
   a frame. Here main plays the guest: a driver that enables interrupts, gives buffers, and answers each interrupt. */
#include "limit.h"
#include "bunjelav.h"

#include <stdio.h>
#include <stdlib.h>
#include <string.h>

typedef struct nic {
  em_machine machine;
  uint32_t level; /* the interrupt line, as the virtual machine's controller knows it */
  uint8_t ram[65536];
} nic;

/* What this program can't go on after. */
static void must(em_code code, const char *what) {
  if (code == EM_OK) return;
  fprintf(stderr, "mmio: %s was refused: %s\n", what, em_strerror(code));
  exit(1);
}

/* ---- the device's side */

/* Tells the interrupt controller where the line has another level than it knows. */
static void update_line(nic *n) {
  uint32_t level;
  must(em_line(&n->machine, &level), "the line");
  if (level != n->level) printf("  irq %s\n", level ? "raised" : "lowered");
  n->level = level;
}

/* The guest reads `size` octets of the window. What is refused reads as ones, as on a bus: of another width, too. */
static uint64_t bar_read(void *opaque, uint64_t offset, unsigned size) {
  nic *n = opaque;
  uint64_t value;
  if (offset > UINT32_MAX || em_read_sized(&n->machine, (uint32_t)offset, size, &value) != EM_OK) value = UINT64_MAX;
  update_line(n);
  return value;
}

/* The adapter reads and writes octets of the guest's memory. Where there is none, the step is refused. */
static bool dma_read(void *opaque, uint64_t address, uint8_t *out, size_t length) {
  const nic *n = opaque;
  return address + length <= sizeof n->ram && memcpy(out, n->ram + address, length);
}

static bool dma_write(void *opaque, uint64_t address, const uint8_t *octets, size_t length) {
  nic *n = opaque;
  return address + length <= sizeof n->ram && memcpy(n->ram + address, octets, length);
}

/* Lets both engines work until they have nothing to do, or refuse what they were given. */
static void run_engines(nic *n) {
  em_note event;
  while (em_rx_step(&n->machine, &event) == EM_OK && event.kind != EM_RX_IDLE)
    printf("  descriptor %u is written\n", (unsigned)event.value);
  while (em_tx_step(&n->machine, &event) == EM_OK && event.kind != EM_TX_IDLE)
    if (event.kind == EM_SENT) printf("  a frame of %u octets is sent\n", (unsigned)event.length);
  update_line(n);
}

/* The guest writes `size` octets of the window. */
static void bar_write(void *opaque, uint64_t offset, uint64_t value, unsigned size) {
  nic *n = opaque;
  if (offset > UINT32_MAX) return;
  if (em_write_sized(&n->machine, (uint32_t)offset, size, value) == EM_MEMORY) must(EM_MEMORY, "a write");
  run_engines(n);
}

/* The network has a frame. */
static void deliver(nic *n, const uint8_t *frame, size_t length) {
  set_limit(LIMIT, "mmio: a frame took 10 seconds: what loop waits for what the guest or the adapter never does?\n");
  em_note event;
  em_code code = em_arrive(&n->machine, frame, length, &event);
  if (code == EM_LENGTH) return; /* no Ethernet frame has such a length */
  must(code, "a frame");
  printf("frame of %zu octets: %s\n", length, event.kind == EM_STORED ? "stored" : "dropped");
  run_engines(n);
}

/* ---- the guest's side */

enum { ICR = 0x00C0, IMS = 0x00D0, RCTL = 0x0100, RDBAL = 0x2800, RDLEN = 0x2808, RDT = 0x2818 };
enum { RXT0 = 0x80, EN = 0x2, BAM = 0x8000, RING = 0x1000, BUFFERS = 0x2000, WORD = 4 };

static void start_driver(nic *n) {
  /* the addresses of the buffers, low octet first, of which the second alone is not 0 */
  for (unsigned i = 0; i < 8; i++) n->ram[RING + 16 * i + 1] = (uint8_t)((BUFFERS + 0x800 * i) >> 8);
  const uint32_t writes[][2] = {{RDBAL, RING}, {RDLEN, 8 * 16}, {RDT, 7}, {IMS, RXT0}, {RCTL, EN | BAM}};
  for (unsigned i = 0; i < 5; i++) bar_write(n, writes[i][0], writes[i][1], WORD);
}

static void handle_interrupt(nic *n) {
  while (n->level) printf("  guest reads ICR: %08X\n", (unsigned)bar_read(n, ICR, WORD));
  set_limit(0, NULL);
}

/* The next frame of the file: a line of hexadecimal digits. */
static size_t next_frame(FILE *file, uint8_t *frame, size_t room) {
  static char digits[40001];
  size_t length = 0;
  unsigned octet;
  if (fscanf(file, "%40000s", digits) != 1) return 0;
  while (length < room && sscanf(digits + 2 * length, "%2x", &octet) == 1) frame[length++] = (uint8_t)octet;
  return length;
}

int main(int count, char **words) {
  static nic n = {EM_NO_MACHINE, 0, {0}};
  const em_ram memory = {&n, dma_read, dma_write, NULL, 0};
  const uint8_t mac[6] = {0x52, 0x54, 0x00, 0x12, 0x34, 0x56};
  static uint8_t frame[20000];
  size_t length, done, back = 0;
  FILE *file = count > 1 ? fopen(words[1], "r") : stdin;
  if (!file) return perror(words[1]), 1;
  if (count < 2) fputs("mmio: reads frames from standard input, each a line of hexadecimal digits\n", stderr);
  must(em_make(&n.machine, sizeof n.ram, 1048576, mac), "a machine");
  must(em_attach(&n.machine, &memory), "its memory");
  must(em_set_link(&n.machine, true), "the link");
  start_driver(&n);
  for (; (length = next_frame(file, frame, sizeof frame)) != 0; handle_interrupt(&n)) deliver(&n, frame, length);
  /* and now the other way: back to where the line was up for the last time */
  for (uint32_t level = 0; !level && em_back(&n.machine, 1, &done) == EM_OK && done == 1; back++)
    must(em_line(&n.machine, &level), "the line");
  printf("the line was up %zu step%s back\n", back, back == 1 ? "" : "s");
  em_free(&n.machine);
  return 0;
}
