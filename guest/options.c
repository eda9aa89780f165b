#include "options.h"

#include <stdio.h>
#include <stdlib.h>
#include <string.h>
#include <sys/stat.h>

#include "bunjelav.h"
#include "say.h"

const uint8_t options_mac[6] = {0x52, 0x54, 0x00, 0x12, 0x34, 0x56};

static const char help[] =
    "Puts a software model of Intel's 82540EM network adapter into a QEMU, where a guest's own driver works on it, "
    "and\n"
    "keeps what they did as a script for em_debug.\n"
    "\n"
    "Usage: em_guest [OPTIONS] -- qemu-system-x86_64 WORD ..\n"
    "       em_guest [OPTIONS] --listen PATH\n"
    "       em_guest --name RUN --symbols FILE[@ADDRESS]\n"
    "\n"
    "Options:\n"
    "      --run <FILE>         What is kept of the run [default: run.em]\n"
    "      --over               Write over files that are there\n"
    "      --net <NET>          The wire: `user` or `user,..`, which is QEMU's own network, or `unix:OWN:OTHER`, paths "
    "of\n"
    "                           two sockets of datagrams; without a wire, it ends in the air\n"
    "      --tap <NAME>         The wire: this TAP device of the host's\n"
    "      --peer <COMMAND>     The wire: a program on whose standard streams each frame stands behind its length, of "
    "two\n"
    "                           octets, the high one first\n"
    "      --pcap-in <FILE>     Frames that arrive, at their times from the guest's first receiving on\n"
    "      --pcap-out <FILE>    Write the frames that pass on the wire to this file\n"
    "      --pc                 Keep the guest's program counter beside each access, by a plugin for QEMU's TCG\n"
    "      --symbols <FILE>     Name program counters by this program with debug information; behind an @ the address "
    "of its\n"
    "                           first octet of code, where it is a module\n"
    "      --name <RUN>         Only name the program counters of a run that is there\n"
    "      --stop-at <WHAT>     Hold the guest there, and ask em_debug of the run so far; `quit` lets the guest go on. "
    "WHAT\n"
    "                           is refused, dropped N, frame N, access REGISTER, warning, the name of a warning, or "
    "Ctrl-C;\n"
    "                           it may stand eight times\n"
    "      --debugger <PROGRAM> The em_debug that is asked [default: that of this repository]\n"
    "      --mac <HEX12>        The adapter's Ethernet address [default: 525400123456]\n"
    "      --profile <PROFILE>  Its registers: table, or adapter, which has what operating systems need [default: "
    "table]\n"
    "      --slot <N>           Where it lies on the PCI bus, from 1 to 31 [default: 3]\n"
    "      --irq <PATH:N>       An input of an interrupt controller of QEMU's; it may stand four times\n"
    "      --print              Print the words that QEMU would be started with, and end\n"
    "      --listen <PATH>      Wait at a socket for a QEMU that somebody else starts\n"
    "      --qtest <PATH>       With --listen: the socket of that QEMU's -qtest\n"
    "  -h, --help               Print help\n"
    "  -V, --version            Print version\n"
    "\n"
    "The status is QEMU's, or 1 where it died or sent what is no message, 2 where the command line was bad, 3 where\n"
    "something could not be opened or started.\n";

static bool parse_profile(const char *text, uint32_t *profile) {
  *profile = strcmp(text, "adapter") == 0 ? EM_PROFILE_ADAPTER : EM_PROFILE_TABLE;
  return *profile == EM_PROFILE_ADAPTER || strcmp(text, "table") == 0;
}

static bool parse_mac(const char *text, uint8_t mac[6]) {
  size_t digits = 0;
  uint8_t value = 0;
  for (; *text != '\0'; text++) {
    if (*text == ':' && digits > 0 && digits % 2 == 0 && text[-1] != ':') continue;
    static const char hex[] = "0123456789abcdef";
    const char *at = strchr(hex, *text >= 'A' && *text <= 'F' ? *text - 'A' + 'a' : *text);
    if (!at || digits == 12) return false;
    value = (uint8_t)(value << 4 | (at - hex));
    if (++digits % 2 == 0) mac[digits / 2 - 1] = value;
  }
  return digits == 12;
}

static bool parse_slot(const char *text, uint32_t *slot) {
  char *end;
  if (*text < '0' || *text > '9') return false;
  unsigned long value = strtoul(text, &end, 10);
  *slot = (uint32_t)value;
  return *end == '\0' && value >= 1 && value <= 31;
}

/* Where the text of an option goes, or NULL where it has none or is none. */
static const char **text_of(struct options *options, const char *word) {
  const struct {
    const char *word, **to;
  } texts[] = {
      {"--run", &options->run},           {"--name", &options->name},       {"--listen", &options->listen},
      {"--qtest", &options->qtest},       {"--net", &options->net},         {"--pcap-in", &options->pcap_in},
      {"--pcap-out", &options->pcap_out}, {"--symbols", &options->symbols}, {"--mac", &options->mac_text},
      {"--slot", &options->slot_text},    {"--profile", &options->profile_text},    {"--tap", &options->tap},         {"--peer", &options->peer},
      {"--debugger", &options->debugger},
  };
  for (size_t i = 0; i < sizeof texts / sizeof *texts; i++)
    if (strcmp(word, texts[i].word) == 0) return texts[i].to;
  return NULL;
}

/* The flag that an option sets, or NULL where it is none. */
static bool *flag_of(struct options *options, const char *word) {
  if (strcmp(word, "--over") == 0) return &options->over;
  if (strcmp(word, "--print") == 0) return &options->prints;
  if (strcmp(word, "--pc") == 0) return &options->has_counter;
  return NULL;
}

static enum parsed take_flag(bool *flag, const char *word) {
  if (*flag) return say("%s stands twice", word), REFUSED;
  *flag = true;
  return PARSED;
}

/* Takes an option with a value, where it is one. */
static enum parsed take_value(struct options *options, const char *word, const char *value) {
  const char **text = text_of(options, word);
  bool is_input = strcmp(word, "--irq") == 0;
  if (!text && !is_input) return say("%s is no option; --help shows which there are", word), REFUSED;
  if (!value) return say("%s: its value is missing", word), REFUSED;
  if (text && *text) return say("%s stands twice", word), REFUSED;
  if (text) {
    *text = value;
    return PARSED;
  }
  if (options->input_count == MOST_INPUTS) return say("--irq stands more than four times"), REFUSED;
  if (input_parse(value, &options->inputs[options->input_count++])) return PARSED;
  return say("--irq: PATH:NUMBER is wanted, as /machine/i440fx/ioapic:11"), REFUSED;
}

/* Takes what stands behind --stop-at; how many words that are, or 0 where it is refused. */
static int take_stop(struct options *options, char **words) {
  if (!words[0] || strcmp(words[0], "--") == 0) return say("--stop-at: its value is missing"), 0;
  if (options->stop_count == MOST_STOPS) return say("--stop-at stands more than eight times"), 0;
  return stop_parse(words, &options->stops[options->stop_count++]);
}

/* The values that are no texts. */
static enum parsed take_numbers(struct options *options) {
  if (options->mac_text && !parse_mac(options->mac_text, options->mac))
    return say("--mac: an Ethernet address is 12 hexadecimal digits, in which colons may stand"), REFUSED;
  if (options->slot_text && !parse_slot(options->slot_text, &options->slot))
    return say("--slot: 1 to 31 is wanted"), REFUSED;
  if (options->profile_text && !parse_profile(options->profile_text, &options->profile))
    return say("--profile: table or adapter is wanted"), REFUSED;
  return PARSED;
}

/* Whether two paths lead to one file; what is not there yet is known by its path. */
static bool is_same(const char *left, const char *right) {
  struct stat a, b;
  if (!left || !right) return false;
  if (strcmp(left, right) == 0) return true;
  return stat(left, &a) == 0 && stat(right, &b) == 0 && S_ISREG(a.st_mode) && a.st_dev == b.st_dev &&
         a.st_ino == b.st_ino;
}

/* No file is written over that is read, or written twice. */
static enum parsed keep_apart(const struct options *options) {
  const struct {
    const char *written, *path, *other_option, *other;
  } pairs[] = {
      {"--run", options->run, "--pcap-in", options->pcap_in},
      {"--pcap-out", options->pcap_out, "--pcap-in", options->pcap_in},
      {"--pcap-out", options->pcap_out, "--run", options->run},
  };
  for (size_t i = 0; i < sizeof pairs / sizeof *pairs; i++)
    if (is_same(pairs[i].path, pairs[i].other))
      return say("%s %s: it is the file of %s too, and would be written over", pairs[i].written, pairs[i].path,
                 pairs[i].other_option),
             REFUSED;
  return PARSED;
}

/* What goes together. */
static enum parsed agree(const struct options *options) {
  if (options->name) {
    if (options->symbols) return PARSED;
    return say("--name: --symbols is missing"), REFUSED;
  }
  if (!options->listen == !options->words) return say("either a QEMU behind -- is wanted, or --listen"), REFUSED;
  if (options->listen && (options->has_counter || options->prints))
    return say("--pc and --print go with a QEMU behind --"), REFUSED;
  if (options->listen && options->net && strncmp(options->net, "unix:", 5) != 0)
    return say("--net: with --listen the wire is unix:OWN:OTHER"), REFUSED;
  if (options->net && strncmp(options->net, "unix:", 5) != 0 && strcmp(options->net, "user") != 0 &&
      strncmp(options->net, "user,", 5) != 0)
    return say("--net: user, user,.. or unix:OWN:OTHER is wanted"), REFUSED;
  if (options->qtest && !options->listen) return say("--qtest goes with --listen"), REFUSED;
  if (!!options->net + !!options->tap + !!options->peer > 1)
    return say("the wire has one other end: --net, --tap or --peer"), REFUSED;
  if (options->debugger && options->stop_count == 0) return say("--debugger goes with --stop-at"), REFUSED;
  return keep_apart(options);
}

enum parsed options_parse(struct options *options, int count, char **words) {
  *options = (struct options){.slot = 3};
  memcpy(options->mac, options_mac, sizeof options->mac);
  for (int i = 1; i < count; i++) {
    const char *word = words[i];
    if (strcmp(word, "-h") == 0 || strcmp(word, "--help") == 0) return fputs(help, stdout), HELPED;
    if (strcmp(word, "-V") == 0 || strcmp(word, "--version") == 0) return puts("em_guest " EM_VERSION), HELPED;
    if (strcmp(word, "--") == 0) {
      if (!words[i + 1]) return say("behind -- a QEMU is wanted"), REFUSED;
      options->words = words + i + 1;
      break;
    }
    if (strcmp(word, "--stop-at") == 0) {
      int used = take_stop(options, words + i + 1);
      if (used == 0) return REFUSED;
      i += used;
      continue;
    }
    bool *flag = flag_of(options, word);
    enum parsed took = flag ? take_flag(flag, word) : take_value(options, word, words[i + 1]);
    if (took != PARSED) return took;
    if (!flag) i++;
  }
  if (!options->run) options->run = "run.em";
  return take_numbers(options) == PARSED ? agree(options) : REFUSED;
}
