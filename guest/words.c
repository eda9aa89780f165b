#include "words.h"

#include <inttypes.h>
#include <stdarg.h>
#include <stdio.h>
#include <stdlib.h>
#include <string.h>

#include "say.h"

/* Adds a word; without memory for it nothing is added, and the list ends where it did. */
__attribute__((format(printf, 2, 3))) static bool add(struct words *words, const char *format, ...) {
  char *text = NULL, **list = realloc(words->list, (words->count + 2) * sizeof *list);
  va_list values;
  if (!list) return false;
  words->list = list;
  list[words->count] = NULL;
  va_start(values, format);
  int length = vasprintf(&text, format, values);
  va_end(values);
  if (length < 0) return false;
  list[words->count++] = text;
  list[words->count] = NULL;
  return true;
}

void words_free(struct words *words) {
  for (size_t i = 0; i < words->count; i++) free(words->list[i]);
  free(words->list);
  *words = (struct words){0};
}

/* Whether a word is QEMU's option of this name: it takes one dash, or two. */
static bool is_option(const char *word, const char *name) {
  if (word[0] != '-') return false;
  return strcmp(word + (word[1] == '-' ? 2 : 1), name) == 0;
}

/* The value of the newest of these options, or NULL. */
static const char *value_of(char **words, const char *name) {
  const char *value = NULL;
  for (; *words; words++)
    if (is_option(*words, name) && words[1]) value = words[1];
  return value;
}

static bool has_option(char **words, const char *name) {
  for (; *words; words++)
    if (is_option(*words, name)) return true;
  return false;
}

static bool has_text(char **words, const char *text) {
  for (; *words; words++)
    if (strstr(*words, text)) return true;
  return false;
}

bool words_use_kvm(char **words) {
  for (char **word = words; *word; word++) {
    if (is_option(*word, "enable-kvm")) return true;
    if (is_option(*word, "accel") && word[1]) return strncmp(word[1], "kvm", 3) == 0;
    if ((is_option(*word, "machine") || is_option(*word, "M")) && word[1] && strstr(word[1], "accel=kvm")) return true;
  }
  return false;
}

struct input words_input(char **words, unsigned slot) {
  static const uint32_t pc[] = {10, 10, 11, 11};
  const char *machine = value_of(words, "machine"), *short_machine = value_of(words, "M");
  bool is_q35 = (machine && strstr(machine, "q35")) || (short_machine && strstr(short_machine, "q35"));
  struct input input = {.number = is_q35 ? 20 + slot % 4 : pc[(slot + 3) % 4]};
  strcpy(input.path, is_q35 ? "/machine/q35/ioapic" : "/machine/i440fx/ioapic");
  return input;
}

/* The octets of memory that -m gives the machine; 0 where it has none that can be read. */
static uint64_t memory_size(char **words) {
  const char *text = value_of(words, "m");
  char *end;
  if (!text) return UINT64_C(128) << 20;
  if (strncmp(text, "size=", 5) == 0) text += 5;
  if (*text < '0' || *text > '9') return 0;
  uint64_t value = strtoull(text, &end, 10);
  unsigned shift = 20;
  switch (*end) {
    case 'k':
    case 'K': shift = 10; break;
    case 'g':
    case 'G': shift = 30; break;
    case 't':
    case 'T': shift = 40; break;
    default: break;
  }
  if (*end != '\0' && *end != ',' && !strchr("kKmMgGtT", *end)) return 0;
  return value > UINT64_MAX >> shift ? 0 : value << shift;
}

/* Guest memory in a file that QEMU can hand on. */
static bool add_memory(struct words *words, char **given) {
  uint64_t size = memory_size(given);
  if (has_text(given, "memory-backend")) return true;
  if (size == 0) {
    say("-m: its size can't be read, as 16, 512M or 1G can");
    return false;
  }
  return add(words, "-object") &&
         add(words, "memory-backend-memfd,id=bunjelav-memory,size=%" PRIu64 ",share=on", size) &&
         add(words, "-machine") && add(words, "memory-backend=bunjelav-memory");
}

/* QEMU's own network in a hub with the adapter's wire; and no adapter of QEMU's own. */
static bool add_net(struct words *words, const struct options *options) {
  char **given = options->words;
  if (!has_option(given, "net") && !has_option(given, "netdev") && !has_option(given, "nic"))
    if (!add(words, "-nic") || !add(words, "none")) return false;
  if (!options->net || strncmp(options->net, "user", 4) != 0) return true;
  return add(words, "-netdev") && add(words, "user,id=bunjelav-user%s", options->net + 4) && add(words, "-netdev") &&
         add(words, "socket,id=bunjelav-wire,fd=%d", WIRE_FILE) && add(words, "-netdev") &&
         add(words, "hubport,id=bunjelav-port-0,hubid=100,netdev=bunjelav-user") && add(words, "-netdev") &&
         add(words, "hubport,id=bunjelav-port-1,hubid=100,netdev=bunjelav-wire");
}

static bool add_interrupt(struct words *words, char **given) {
  if (words_use_kvm(given)) return true;
  return add(words, "-chardev") && add(words, "socket,id=qtest,fd=%d", QTEST_FILE) && add(words, "-qtest") &&
         add(words, "chardev:qtest") && add(words, "-qtest-log") && add(words, "none");
}

static bool has_one_processor(char **words) {
  const char *text = value_of(words, "smp");
  if (!text) return true;
  return strtoul(strncmp(text, "cpus=", 5) == 0 ? text + 5 : text, NULL, 10) == 1;
}

static bool add_counter(struct words *words, const struct options *options, const char *plugin) {
  if (!options->has_counter) return true;
  if (words_use_kvm(options->words)) say("--pc: with KVM no program counter is known; it is for QEMU's TCG");
  else if (!has_one_processor(options->words))
    say("--pc: of several processors a program counter may be another one's; -smp 1 is wanted");
  return add(words, "-plugin") && add(words, "%s,page=/dev/fd/%d", plugin, COUNTER_FILE);
}

bool words_make(struct words *words, const struct options *options, const char *plugin) {
  bool is_whole = true;
  *words = (struct words){0};
  for (char **word = options->words; is_whole && *word; word++) is_whole = add(words, "%s", *word);
  return is_whole && add_memory(words, options->words) && add_net(words, options) &&
         add_interrupt(words, options->words) && add_counter(words, options, plugin) && add(words, "-device") &&
         add(words, "x-pci-proxy-dev,id=bunjelav,addr=%" PRIu32 ",fd=%d", options->slot, DEVICE_FILE);
}

void words_print(const struct words *words) {
  for (size_t i = 0; i < words->count; i++) {
    const char *word = words->list[i];
    bool is_plain =
        *word && strspn(word, "abcdefghijklmnopqrstuvwxyzABCDEFGHIJKLMNOPQRSTUVWXYZ0123456789-_=,./:+") == strlen(word);
    if (i > 0) putchar(' ');
    if (is_plain) {
      fputs(word, stdout);
      continue;
    }
    putchar('\'');
    for (; *word; word++) *word == '\'' ? (void)fputs("'\\''", stdout) : (void)putchar(*word);
    putchar('\'');
  }
  putchar('\n');
}
