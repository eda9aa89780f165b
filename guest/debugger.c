#include "debugger.h"

#include <inttypes.h>
#include <stdio.h>
#include <string.h>

#include "device.h"
#include "options.h"

void debugger_make(struct debugger *debugger, const char *program, uint32_t profile, const uint8_t mac[6]) {
  size_t count = 3;
  *debugger = (struct debugger){.words = {program, "--memory", debugger->memory}, .played = {program}};
  snprintf(debugger->memory, sizeof debugger->memory, "%" PRIu64 "G", MODEL_MEMORY >> 30);
  if (profile == EM_PROFILE_ADAPTER) {
    debugger->words[count++] = "--profile";
    debugger->words[count++] = "adapter";
  }
  if (memcmp(mac, options_mac, sizeof options_mac) == 0) return;
  for (size_t i = 0; i < sizeof options_mac; i++) snprintf(debugger->mac + 2 * i, 3, "%02X", mac[i]);
  debugger->words[count++] = "--mac";
  debugger->words[count++] = debugger->mac;
}

char **debugger_words(struct debugger *debugger, const char *run) {
  debugger->played[1] = run;
  return (char **)(uintptr_t)(run ? debugger->played : debugger->words);
}
