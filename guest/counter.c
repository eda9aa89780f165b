#include "counter.h"

#include <sys/mman.h>
#include <unistd.h>

void counter_make(struct counter *counter) {
  counter->file = -1;
}

bool counter_share(struct counter *counter) {
  counter->file = memfd_create("em_guest-counter", MFD_CLOEXEC);
  return counter->file >= 0 && ftruncate(counter->file, COUNTER_PAGE) == 0;
}

void counter_close(struct counter *counter) {
  if (counter->file >= 0) close(counter->file);
  counter->file = -1;
}

uint64_t counter_now(const struct counter *counter) {
  uint64_t value = 0;
  if (counter->file < 0 || pread(counter->file, &value, sizeof value, 0) != (ssize_t)sizeof value) return 0;
  return value;
}
