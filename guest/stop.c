#include "stop.h"

#include <inttypes.h>
#include <stdio.h>
#include <stdlib.h>
#include <string.h>
#include <strings.h>

#include "say.h"

static const char warning[] = "warning ";

/* The rules that em_debug warns by, as docs/debugger.md has them. */
static const char *const rules[] = {
    "bits-dropped",          "tail-past-ring",      "enabled-before-ring", "descriptor-unwritten", "status-left",
    "interrupts-before-rings", "ring-outside-memory", "buffers-overlap",     "tail-past-head",       "head-while-enabled",
    "written-while-owned",   "read-again"};

static bool parse_count(const char *text, uint64_t *count) {
  char *end;
  if (!text || *text < '1' || *text > '9') return false;
  *count = strtoull(text, &end, 10);
  return *end == '\0' && *count <= UINT32_MAX;
}

/* A register by its name, or by its offset in hexadecimal digits. */
static bool parse_register(const char *text, uint64_t *offset) {
  uint32_t found = 0;
  char *end;
  if (!text) return false;
  if (em_find((const uint8_t *)text, strlen(text), &found) == EM_OK) {
    *offset = found;
    return true;
  }
  if (!strchr("0123456789abcdefABCDEF", *text) || *text == '\0') return false;
  *offset = strtoull(text, &end, 16);
  return *end == '\0' && *offset < REGISTERS_END && *offset % 4 == 0;
}

static bool parse_rule(const char *text, const char **rule) {
  *rule = NULL;
  if (strcmp(text, "warning") == 0) return true;
  for (size_t i = 0; i < sizeof rules / sizeof *rules; i++)
    if (strcmp(text, rules[i]) == 0) *rule = rules[i];
  return *rule != NULL;
}

int stop_parse(char **words, struct stop_at *at) {
  const char *word = words[0] ? words[0] : "";
  *at = (struct stop_at){0};
  if (strcmp(word, "refused") == 0) return at->kind = STOP_REFUSED, 1;
  if (strcasecmp(word, "ctrl-c") == 0) return at->kind = STOP_KEY, 1;
  bool is_dropped = strcmp(word, "dropped") == 0;
  if (is_dropped || strcmp(word, "frame") == 0) {
    at->kind = is_dropped ? STOP_DROPPED : STOP_FRAME;
    if (parse_count(words[1], &at->number)) return 2;
    return say("--stop-at %s: which one is wanted behind it, from 1 on", word), 0;
  }
  if (strcmp(word, "access") == 0) {
    at->kind = STOP_ACCESS;
    if (parse_register(words[1], &at->number)) return 2;
    return say("--stop-at access: a register is wanted behind it, by its name or its offset"), 0;
  }
  at->kind = STOP_WARNING;
  if (parse_rule(word, &at->rule)) return 1;
  say("--stop-at: refused, dropped N, frame N, access REGISTER, warning, the name of a warning, or Ctrl-C is wanted");
  return 0;
}

bool stop_has(const struct stops *stops, enum stop_kind kind) {
  for (size_t i = 0; i < stops->count; i++)
    if (stops->list[i].kind == kind) return true;
  return false;
}

void stop_accessed(struct stops *stops, uint32_t offset) {
  for (size_t i = 0; i < stops->count; i++) {
    if (stops->list[i].kind != STOP_ACCESS || stops->list[i].number != offset) continue;
    stops->is_accessed = true;
    stops->accessed = offset;
  }
}

static void say_access(uint32_t offset, char why[MOST_WHY]) {
  uint8_t name[16];
  size_t length = 0;
  if (em_name(offset, name, sizeof name, &length) == EM_OK) snprintf(why, MOST_WHY, "%s is accessed", (char *)name);
  else snprintf(why, MOST_WHY, "%05" PRIX32 " is accessed", offset);
}

/* The first of these warnings that is of a rule, or of any. */
static bool find_warning(const char *warnings, const char *rule, char why[MOST_WHY]) {
  for (const char *line = warnings; *line; line += strcspn(line, "\n"), line += *line == '\n') {
    const char *name = line + strlen(warning);
    if (strncmp(line, warning, strlen(warning)) != 0) continue;
    if (rule && (strncmp(name, rule, strlen(rule)) != 0 || name[strlen(rule)] != ':')) continue;
    snprintf(why, MOST_WHY, "%.*s", (int)strcspn(line, "\n"), line);
    return true;
  }
  return false;
}

/* Whether a count has come to be what is waited for. */
static bool is_reached(uint64_t before, uint64_t now, uint64_t wanted) {
  return before < wanted && wanted <= now;
}

bool stop_is_due(struct stops *stops, const struct tally *tally, const char *warnings, char why[MOST_WHY]) {
  uint64_t refused = tally->refused + tally->steps_refused + tally->outside, frames = tally->arrived + tally->sent;
  bool is_due = false;
  for (size_t i = 0; i < stops->count && !is_due; i++) {
    const struct stop_at *at = &stops->list[i];
    switch (at->kind) {
      case STOP_REFUSED:
        is_due = refused > stops->refused;
        snprintf(why, MOST_WHY, "an access or a step was refused");
        break;
      case STOP_DROPPED:
        is_due = is_reached(stops->dropped, tally->dropped, at->number);
        snprintf(why, MOST_WHY, "frame %" PRIu64 " of those that are dropped", at->number);
        break;
      case STOP_FRAME:
        is_due = is_reached(stops->frames, frames, at->number);
        snprintf(why, MOST_WHY, "frame %" PRIu64 " of the wire", at->number);
        break;
      case STOP_ACCESS:
        is_due = stops->is_accessed;
        say_access(stops->accessed, why);
        break;
      case STOP_WARNING: is_due = find_warning(warnings, at->rule, why); break;
      case STOP_KEY: break;
    }
  }
  stops->refused = refused;
  stops->dropped = tally->dropped;
  stops->frames = frames;
  stops->is_accessed = false;
  return is_due;
}
