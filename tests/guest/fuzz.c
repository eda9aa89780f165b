/* Sends mutated messages to em_guest's session over a socket, as a QEMU that sends rubbish, and demands that each whole
   message is obeyed and answered, that each other one ends the session, and that nothing waits.

       fuzz MESSAGES SEED RUN

   Between messages it writes to guest memory, and frames arrive. The run is kept in the file RUN. It prints what it
   sent and what came of it; sanitizers tell the rest. */
#include <errno.h>
#include <fcntl.h>
#include <inttypes.h>
#include <stdio.h>
#include <stdlib.h>
#include <string.h>
#include <sys/eventfd.h>
#include <sys/mman.h>
#include <sys/socket.h>
#include <unistd.h>

#include "say.h"
#include "session.h"

enum {
  GUEST_MEMORY = 4 << 20,
  PORTS = 0xC000,
  MOST_OCTETS = 512,
  RENEWED_EACH = 5000 /* messages, after which the adapter is a new one */
};

static const uint32_t WINDOW = 0xFEB00000;

static struct session session;
static struct run run;
static int other = -1, memory = -1;
static uint8_t *guest;
static uint64_t state;
static uint64_t sent, broken, ended, answers;
static struct tally all;

static void die(const char *what) {
  fprintf(stderr, "fuzz: message %" PRIu64 ": %s\n", sent, what);
  abort();
}

/* A number below n. (splitmix64) */
static uint64_t draw(uint64_t n) {
  state += 0x9E3779B97F4A7C15;
  uint64_t z = state;
  z = (z ^ z >> 30) * 0xBF58476D1CE4E5B9;
  z = (z ^ z >> 27) * 0x94D049BB133111EB;
  return (z ^ z >> 31) % n;
}

static uint64_t any_number(void) {
  uint64_t whole = draw(UINT64_MAX);
  return draw(3) ? whole >> draw(64) : draw(2) ? UINT64_MAX - draw(16) : draw(16);
}

/* ---- a message */

struct sending {
  uint8_t octets[MOST_OCTETS];
  size_t length;
  int descriptors[10];
  size_t count;
};

static void put(struct sending *to, size_t at, const void *value, size_t length) {
  memcpy(to->octets + at, value, length);
}

static void put32(struct sending *to, size_t at, uint32_t value) {
  put(to, at, &value, sizeof value);
}

static void put64(struct sending *to, size_t at, uint64_t value) {
  put(to, at, &value, sizeof value);
}

static void head(struct sending *to, uint32_t command, uint64_t size) {
  memset(to, 0, sizeof *to);
  put32(to, 0, command);
  put64(to, 8, size);
  to->length = 16 + size;
}

static int any_descriptor(void) {
  switch (draw(4)) {
    case 0: return open("/dev/null", O_RDWR | O_CLOEXEC);
    case 1: return eventfd(0, EFD_CLOEXEC);
    case 2: return memfd_create("short", MFD_CLOEXEC);
    default: return fcntl(memory, F_DUPFD_CLOEXEC, 3);
  }
}

static void sync_memory(struct sending *to) {
  bool is_odd = draw(8) == 0;
  head(to, SYNC_MEMORY, MOST_DATA);
  to->count = is_odd ? 1 + draw(8) : 1;
  for (size_t i = 0; i < to->count; i++) {
    to->descriptors[i] = is_odd ? any_descriptor() : fcntl(memory, F_DUPFD_CLOEXEC, 3);
    put64(to, 16 + 8 * i, is_odd ? any_number() : 0);
    put64(to, 80 + 8 * i, is_odd ? any_number() : GUEST_MEMORY);
    put64(to, 144 + 8 * i, is_odd ? any_number() : 0);
  }
}

static void set_interrupt(struct sending *to) {
  head(to, SET_INTERRUPT, 0);
  to->count = 2;
  for (size_t i = 0; i < 2; i++)
    to->descriptors[i] = draw(2) ? eventfd(0, EFD_CLOEXEC | EFD_NONBLOCK) : any_descriptor();
}

static void config(struct sending *to) {
  static const uint32_t places[] = {0, 4, 6, 0x10, 0x18, 0x2C, 0x3C, 0xFC, 0xFF};
  static const uint32_t lengths[] = {1, 2, 4, 3, 0};
  head(to, draw(2) ? CONFIG_READ : CONFIG_WRITE, 12);
  put32(to, 16, draw(4) ? places[draw(9)] : (uint32_t)any_number());
  put32(to, 20, (uint32_t)any_number());
  put32(to, 24, draw(8) ? lengths[draw(3)] : lengths[draw(5)]);
}

/* A register that an engine or a filter goes by, and a value that may let it act. */
static void likely(uint32_t *offset, uint64_t *value) {
  static const struct {
    uint32_t offset, most;
  } some[] = {{0x0000, 1},  {0x00C0, 0x100}, {0x00D0, 0x100}, {0x0100, 0}, {0x0400, 16},    {0x2800, 0}, {0x2804, 2},
              {0x2808, 0},  {0x2810, 16},    {0x2818, 16},    {0x3800, 0}, {0x3804, 2},     {0x3808, 0}, {0x3810, 16},
              {0x3818, 16}, {0x2818, 8},     {0x3818, 8},     {0x2818, 8}, {0x0010, 0x100}, {0x3818, 8}};
  size_t i = draw(sizeof some / sizeof *some);
  *offset = some[i].offset;
  *value = some[i].most ? draw(some[i].most) : 0;
  if (*offset == 0x0100) *value = 0x801A | draw(2) << 25 | draw(4) << 16;
  if (*offset == 0x0400) *value |= 2;
  if ((*offset & 0xFFF) == 0x808) *value = 128;
  if ((*offset & 0xFFF) == 0x800) *value = draw(3) ? 0x1000 * (1 + draw(8)) : any_number();
  if ((*offset & 0xFFF) == 0x804) *value = draw(8) ? 0 : any_number();
  if (*offset == 0 && draw(10) == 0) *value = 0x04000000;
}

static void bar(struct sending *to) {
  static const uint32_t sizes[] = {4, 4, 4, 4, 1, 2, 8, 3};
  uint32_t offset = 0;
  uint64_t value = 0, address;
  bool is_memory = draw(8) != 0;
  likely(&offset, &value);
  address = is_memory ? WINDOW + offset : PORTS + 4 * draw(2);
  if (draw(12) == 0) address = any_number();
  else if (draw(12) == 0) address += draw(0x20000);
  head(to, draw(3) ? BAR_WRITE : BAR_READ, 24);
  put64(to, 16, address);
  put64(to, 24, draw(6) ? value : any_number());
  put32(to, 32, draw(6) ? 4 : sizes[draw(8)]);
  to->octets[36] = (uint8_t)(draw(20) ? is_memory : draw(256));
}

static void make(struct sending *to) {
  switch (draw(16)) {
    case 0: sync_memory(to); break;
    case 1: set_interrupt(to); break;
    case 2:
    case 3: config(to); break;
    case 4:
      if (draw(8) == 0) {
        head(to, DEVICE_RESET, 0);
        break;
      }
      /* fall through */
    default: bar(to);
  }
}

/* Mistakes of the stream itself. */
static void mutate(struct sending *to) {
  switch (draw(6)) {
    case 0: to->octets[draw(to->length)] ^= (uint8_t)(1u << draw(8)); break;
    case 1: put32(to, 0, (uint32_t)any_number()); break;
    case 2: put64(to, 8, any_number()); break;
    case 3: to->length = draw(to->length + 1); break;
    case 4: to->length += draw(MOST_OCTETS - to->length); break;
    default:
      while (to->count < 1 + draw(9)) to->descriptors[to->count++] = any_descriptor();
  }
}

/* ---- the other end */

static void open_session(void) {
  int ends[2];
  if (socketpair(AF_UNIX, SOCK_STREAM | SOCK_CLOEXEC, 0, ends) != 0) die("no sockets");
  channel_open(&session.channel, ends[0]);
  other = ends[1];
}

static void close_session(void) {
  channel_close(&session.channel);
  close(other);
}

/* The registers lie where the messages look for them, and the engines may use memory. */
static void settle(void) {
  config_write(&session.config, 0x10, 4, WINDOW);
  config_write(&session.config, 0x18, 4, PORTS);
  config_write(&session.config, 4, 2, 7);
  device_set_master(&session.device, true);
}

static void make_adapter(void) {
  static const uint8_t mac[6] = {0x52, 0x54, 0x00, 0x12, 0x34, 0x56};
  interrupt_make(&session.interrupt);
  counter_make(&session.counter);
  config_reset(&session.config);
  if (!device_make(&session.device, EM_PROFILE_TABLE, mac, &run, NULL, NULL)) die("no memory");
  session.bar.io_address = 0;
  settle();
}

/* Frees it, and counts what it did. */
static void free_adapter(void) {
  const struct tally *tally = &session.device.tally;
  all.accesses += tally->accesses;
  all.arrived += tally->arrived - tally->dropped;
  all.sent += tally->sent;
  all.steps_refused += tally->steps_refused;
  all.outside += tally->outside;
  interrupt_close(&session.interrupt);
  device_free(&session.device);
}

static void send_message(struct sending *what) {
  union {
    struct cmsghdr head;
    char room[CMSG_SPACE(10 * sizeof(int))];
  } control;
  struct iovec octets = {what->octets, what->length};
  struct msghdr message = {.msg_iov = &octets, .msg_iovlen = 1};
  memset(&control, 0, sizeof control);
  if (what->count > 0) {
    message.msg_control = &control;
    message.msg_controllen = CMSG_SPACE(what->count * sizeof(int));
    control.head = (struct cmsghdr){
        .cmsg_len = CMSG_LEN(what->count * sizeof(int)), .cmsg_level = SOL_SOCKET, .cmsg_type = SCM_RIGHTS};
    memcpy(CMSG_DATA(&control.head), what->descriptors, what->count * sizeof(int));
  }
  if (what->length > 0 && sendmsg(other, &message, MSG_NOSIGNAL) < 0 && errno != EPIPE) die("it can't be sent");
  for (size_t i = 0; i < what->count; i++) close(what->descriptors[i]);
}

/* How many answers came; each is one of the protocol's. */
static uint64_t take_answers(void) {
  uint8_t octets[24];
  uint64_t count = 0;
  for (;; count++) {
    ssize_t got = recv(other, octets, sizeof octets, MSG_DONTWAIT);
    if (got <= 0) return count;
    if (got != (ssize_t)sizeof octets || octets[0] != REPLY || octets[8] != 8) die("an answer is none");
  }
}

static void one_message(void) {
  struct sending what;
  make(&what);
  bool is_well = draw(20) != 0;
  uint32_t command;
  if (!is_well) mutate(&what);
  memcpy(&command, what.octets, sizeof command);
  send_message(&what);
  sent++;
  enum received took = session_serve(&session);
  uint64_t came = take_answers();
  answers += came;
  if (is_well && took != WAITS) die("a whole message ended the session");
  if (is_well && came != (command != SYNC_MEMORY && command != SET_INTERRUPT))
    die("it has another number of answers than one");
  broken += took == BROKEN;
  if (is_well) return;
  /* now and then the other end dies within its message */
  if (took != BROKEN) {
    shutdown(other, SHUT_WR);
    took = session_serve(&session);
    if (took != ENDED && took != BROKEN) die("the end is not seen");
    ended++;
  }
  close_session();
  open_session();
}

/* The guest's processor writes to its memory, and the wire brings a frame. */
static void meanwhile(void) {
  uint8_t frame[2000];
  if (draw(2)) settle();
  for (int i = 0; i < 4; i++) {
    uint8_t *descriptor = guest + 0x1000 * (1 + draw(8)) + 16 * draw(8);
    uint64_t address = draw(16) ? draw(GUEST_MEMORY) : any_number();
    uint16_t length = (uint16_t)(draw(16) ? 14 + draw(1500) : any_number());
    memcpy(descriptor, &address, sizeof address);
    memcpy(descriptor + 8, &length, sizeof length);
    descriptor[11] = (uint8_t)(draw(12) ? draw(2) | draw(2) << 3 : draw(256));
    descriptor[12] = 0;
  }
  if (draw(3)) return;
  size_t length = 1 + draw(sizeof frame);
  for (size_t i = 0; i < length; i++) frame[i] = (uint8_t)draw(256);
  if (draw(2)) memset(frame, 0xFF, length < 6 ? length : 6);
  device_arrive(&session.device, frame, length);
  session_turn(&session);
}

int main(int count, char **words) {
  if (count != 4) return 2;
  uint64_t messages = strtoull(words[1], NULL, 10);
  state = strtoull(words[2], NULL, 10);
  say_nothing();
  alarm(500); /* nothing hangs */
  int lowest = dup(0);
  close(lowest);
  memory = memfd_create("guest", MFD_CLOEXEC);
  if (memory < 0 || ftruncate(memory, GUEST_MEMORY) != 0) die("no memory");
  guest = mmap(NULL, GUEST_MEMORY, PROT_READ | PROT_WRITE, MAP_SHARED, memory, 0);
  if (guest == MAP_FAILED || !run_open(&run, words[3], true)) die("no files");
  make_adapter();
  open_session();
  while (sent < messages) {
    one_message();
    meanwhile();
    if (sent % RENEWED_EACH != 0) continue;
    free_adapter();
    if (sent == RENEWED_EACH) run_close(&run); /* one adapter's run is whole */
    make_adapter();
  }
  free_adapter();
  printf("%" PRIu64 " messages, %" PRIu64 " answers, %" PRIu64 " broken, %" PRIu64 " cut off; %" PRIu64
         " accesses, %" PRIu64 " frames stored, %" PRIu64 " sent, %" PRIu64 " steps refused, %" PRIu64 " outside\n",
         sent, answers, broken, ended, all.accesses, all.arrived, all.sent, all.steps_refused, all.outside);
  close_session();
  run_close(&run);
  munmap(guest, GUEST_MEMORY);
  close(memory);
  if (dup(0) != lowest) die("a descriptor is left");
  return 0;
}
