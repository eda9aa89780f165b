#include "report.h"

#include <inttypes.h>
#include <stdio.h>
#include <string.h>

#include "say.h"

enum { MOST_NAMED = 12 };

/* The registers that the model has not, and how often the guest accessed each. */
static void report_refused(const struct device *device) {
  char text[900];
  size_t have = 0, named = 0, more = 0;
  for (uint32_t i = 0; i < REGISTERS_END / 4; i++) {
    if (device->refused_reads[i] == 0 && device->refused_writes[i] == 0) continue;
    if (named == MOST_NAMED) {
      more++;
      continue;
    }
    int wrote = snprintf(text + have, sizeof text - have, "%s%05" PRIX32 " (%" PRIu32 " reads, %" PRIu32 " writes)",
                         named ? ", " : "", i * 4, device->refused_reads[i], device->refused_writes[i]);
    if (wrote <= 0 || (size_t)wrote >= sizeof text - have) break;
    have += (size_t)wrote;
    named++;
  }
  if (named == 0) return;
  if (more) say("the guest accessed registers that the model has not: %s, and %zu more", text, more);
  else say("the guest accessed registers that the model has not: %s", text);
}

/* What plays the run. */
static void report_run(const struct run *run, struct debugger *debugger, const char *path) {
  char text[1024] = "./em_debug";
  char **words = debugger_words(debugger, path);
  for (size_t i = 1, have = strlen(text); words[i] && have + 1 < sizeof text; i++, have = strlen(text))
    snprintf(text + have, sizeof text - have, " %s", words[i]);
  say("%s has %" PRIu64 " lines: %s", path, run->lines, text);
}

void report(const struct device *device, const struct run *run, uint64_t lost, struct debugger *debugger,
            const char *path) {
  const struct tally *tally = &device->tally;
  say("%" PRIu64 " accesses of registers, %" PRIu64 " refused; %" PRIu64 " frames arrived, %" PRIu64
      " were dropped, %" PRIu64 " were sent; %" PRIu64 " steps of engines refused",
      tally->accesses, tally->refused, tally->arrived, tally->dropped, tally->sent, tally->steps_refused);
  report_refused(device);
  if (tally->odd) say("%" PRIu64 " accesses were of no register's four octets", tally->odd);
  if (lost) say("the wire's other end did not take %" PRIu64 " of the frames that were sent", lost);
  report_run(run, debugger, path);
}
