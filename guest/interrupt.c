#include "interrupt.h"

#include <errno.h>
#include <fcntl.h>
#include <inttypes.h>
#include <stdio.h>
#include <stdlib.h>
#include <string.h>
#include <sys/socket.h>
#include <unistd.h>

#include "address.h"
#include "say.h"

void interrupt_make(struct interrupt *interrupt) {
  *interrupt = (struct interrupt){.raise = -1, .resample = -1, .qtest = -1};
}

static void close_one(int *descriptor) {
  if (*descriptor >= 0) close(*descriptor);
  *descriptor = -1;
}

void interrupt_close(struct interrupt *interrupt) {
  close_one(&interrupt->raise);
  close_one(&interrupt->resample);
  close_one(&interrupt->qtest);
}

bool input_parse(const char *text, struct input *input) {
  const char *colon = strrchr(text, ':');
  char *end;
  if (!colon || colon == text || (size_t)(colon - text) >= sizeof input->path) return false;
  if (strcspn(text, " \t\n") < (size_t)(colon - text)) return false;
  if (colon[1] < '0' || colon[1] > '9') return false;
  errno = 0;
  unsigned long number = strtoul(colon + 1, &end, 10);
  if (*end != '\0' || errno != 0 || number > 1023) return false;
  memcpy(input->path, text, (size_t)(colon - text));
  input->path[colon - text] = '\0';
  input->number = (uint32_t)number;
  return true;
}

/* A descriptor that nobody waits for: what it is decides the other end. */
static void never_wait(int descriptor) {
  int flags = fcntl(descriptor, F_GETFL);
  if (flags >= 0) fcntl(descriptor, F_SETFL, flags | O_NONBLOCK);
}

static void raise_once(const struct interrupt *interrupt) {
  const uint64_t one = 1;
  if (interrupt->raise < 0) return;
  ssize_t put = write(interrupt->raise, &one, sizeof one);
  (void)put; /* a counter that is full is raised already */
}

void interrupt_set_files(struct interrupt *interrupt, int raise, int resample) {
  close_one(&interrupt->raise);
  close_one(&interrupt->resample);
  interrupt->raise = raise;
  interrupt->resample = resample;
  never_wait(raise);
  never_wait(resample);
  if (interrupt->is_raised) raise_once(interrupt);
}

/* Connects to QEMU's -qtest, which is there when its guest runs. */
static void reach_qtest(struct interrupt *interrupt) {
  struct sockaddr_un address;
  if (interrupt->qtest >= 0 || !interrupt->path || interrupt->is_told) return;
  errno = ENAMETOOLONG;
  if (address_make(&address, interrupt->path, strlen(interrupt->path)))
    interrupt->qtest = socket(AF_UNIX, SOCK_STREAM | SOCK_CLOEXEC | SOCK_NONBLOCK, 0);
  if (interrupt->qtest >= 0 && connect(interrupt->qtest, address_of(&address), sizeof address) == 0) return;
  interrupt->is_told = true;
  say("--qtest %s: %s: the guest has no interrupts", interrupt->path, strerror(errno));
  close_one(&interrupt->qtest);
}

static void set_input(struct interrupt *interrupt, const struct input *input) {
  char line[MOST_PATH + 64];
  int length = snprintf(line, sizeof line, "set_irq_in %s unnamed-gpio-in %" PRIu32 " %d\n", input->path, input->number,
                        interrupt->is_raised);
  if (length <= 0 || (size_t)length >= sizeof line) return;
  if (send(interrupt->qtest, line, (size_t)length, MSG_DONTWAIT | MSG_NOSIGNAL) == length || interrupt->is_told) return;
  interrupt->is_told = true;
  say("QEMU's -qtest takes no line: the guest has no interrupts from here on");
}

void interrupt_set(struct interrupt *interrupt, bool is_raised) {
  if (interrupt->is_raised == is_raised) return;
  interrupt->is_raised = is_raised;
  if (is_raised) raise_once(interrupt);
  reach_qtest(interrupt);
  for (size_t i = 0; interrupt->qtest >= 0 && i < interrupt->count; i++) set_input(interrupt, &interrupt->inputs[i]);
}

void interrupt_resample(struct interrupt *interrupt) {
  uint64_t count;
  if (read(interrupt->resample, &count, sizeof count) != (ssize_t)sizeof count) {
    if (errno != EAGAIN && errno != EINTR) close_one(&interrupt->resample);
    return;
  }
  if (interrupt->is_raised) raise_once(interrupt);
}

void interrupt_answer(struct interrupt *interrupt) {
  char answers[4096];
  ssize_t got = recv(interrupt->qtest, answers, sizeof answers - 1, MSG_DONTWAIT);
  if (got == 0 || (got < 0 && errno != EAGAIN && errno != EWOULDBLOCK && errno != EINTR)) close_one(&interrupt->qtest);
  if (got <= 0 || interrupt->is_told) return;
  answers[got] = '\0';
  const char *failed = strstr(answers, "FAIL");
  if (!failed) return;
  interrupt->is_told = true;
  say("QEMU's -qtest says %.*s: --irq names an input of its interrupt controller", (int)strcspn(failed, "\n"), failed);
}
