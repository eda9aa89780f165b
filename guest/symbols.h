/* Names for program counters: `0xC000B123` in a source of a run becomes `main.c:120 function`, by binutils' addr2line.
 */
#ifndef GUEST_SYMBOLS_H
#define GUEST_SYMBOLS_H

#include <stdbool.h>

/* Names the program counters in the sources of the run at this path. The text is `FILE`, or `FILE@ADDRESS` where the
   file's first octet of code (its section .text) lies there. The run is written anew, whole, and then takes the place
   of the file `to`, which may be the run itself. False, and told, where that can't be. */
bool symbols_name(const char *run, const char *to, const char *text);

#endif
