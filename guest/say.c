#include "say.h"

#include <stdarg.h>
#include <stdbool.h>
#include <stdio.h>

static bool is_silent;

void say_nothing(void) {
  is_silent = true;
}

void say(const char *format, ...) {
  char text[1024];
  va_list words;
  if (is_silent) return;
  va_start(words, format);
  vsnprintf(text, sizeof text, format, words);
  va_end(words);
  fprintf(stderr, "em_guest: %s\n", text);
}
