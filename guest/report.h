/* What is told of a run at its end. */
#ifndef GUEST_REPORT_H
#define GUEST_REPORT_H

#include "debugger.h"
#include "device.h"

/* `path` is the run's, and `lost` how many frames the wire's other end did not take. */
void report(const struct device *device, const struct run *run, uint64_t lost, struct debugger *debugger,
            const char *path);

#endif
