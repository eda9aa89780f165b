/* em_guest: a guest's own driver on the model of the 82540EM, in a QEMU that is taken as it is. */
#include <inttypes.h>
#include <libgen.h>
#include <limits.h>
#include <signal.h>
#include <stdio.h>
#include <stdlib.h>
#include <string.h>
#include <sys/signalfd.h>
#include <sys/socket.h>
#include <sys/wait.h>
#include <unistd.h>

#include "listen.h"
#include "loop.h"
#include "options.h"
#include "report.h"
#include "say.h"
#include "start.h"
#include "symbols.h"
#include "words.h"

enum { WELL = 0, DIED = 1, BAD_WORDS = 2, NOT_OPENED = 3, PATIENCE = 3000 };

/* The path of a file by its name from the program's folder. */
static bool find_beside(char path[PATH_MAX], const char *name) {
  char own[PATH_MAX];
  ssize_t length = readlink("/proc/self/exe", own, sizeof own - 1);
  if (length <= 0) return false;
  own[length] = '\0';
  int wrote = snprintf(path, PATH_MAX, "%s/%s", dirname(own), name);
  return wrote > 0 && wrote < PATH_MAX;
}

/* Signals become readable, so that none comes between two steps. */
static int catch_signals(void) {
  sigset_t caught;
  sigemptyset(&caught);
  sigaddset(&caught, SIGINT);
  sigaddset(&caught, SIGTERM);
  sigaddset(&caught, SIGHUP);
  sigaddset(&caught, SIGQUIT);
  sigaddset(&caught, SIGCHLD);
  signal(SIGPIPE, SIG_IGN);
  if (sigprocmask(SIG_BLOCK, &caught, NULL) != 0) return -1;
  return signalfd(-1, &caught, SFD_CLOEXEC | SFD_NONBLOCK);
}

static bool open_wire(struct wire *wire, const struct options *options) {
  if (options->tap) return wire_tap(wire, options->tap);
  if (options->peer) return wire_start(wire, options->peer);
  return !options->net || strncmp(options->net, "unix:", 5) != 0 || wire_bind(wire, options->net + 5);
}

/* What --stop-at wants. */
static bool prepare_stops(struct guest *guest, const struct options *options, const char *debugger) {
  memcpy(guest->stops.list, options->stops, sizeof guest->stops.list);
  guest->stops.count = options->stop_count;
  guest->hold.run = options->run;
  guest->hold.symbols = options->symbols;
  hold_make(&guest->hold);
  debugger_make(&guest->hold.debugger, options->debugger ? options->debugger : debugger, options->profile,
                options->mac);
  guest->session.before_answer = loop_look;
  guest->session.whose = guest;
  guest->session.device.on_access = loop_accessed;
  if (!stop_has(&guest->stops, STOP_WARNING)) return true;
  return warner_start(&guest->warner, debugger_words(&guest->hold.debugger, NULL), options->run);
}

static bool open_files(struct guest *guest, const struct options *options) {
  if (!run_open(&guest->run, options->run, options->over)) return false;
  if (options->pcap_in && !capture_open(&guest->capture_in, options->pcap_in)) return false;
  if (options->pcap_out && !(guest->capture_out = capture_create(options->pcap_out, options->over))) return false;
  if (!open_wire(&guest->wire, options)) return false;
  if (device_make(&guest->session.device, options->profile, options->mac, &guest->run, loop_sent, guest)) return true;
  say("there is no memory for the adapter");
  return false;
}

/* The inputs of interrupt controllers: those that are named, or that of the machine. */
static void choose_inputs(struct interrupt *interrupt, const struct options *options) {
  memcpy(interrupt->inputs, options->inputs, sizeof interrupt->inputs);
  interrupt->count = options->input_count;
  interrupt->path = options->qtest;
  if (interrupt->count > 0 || !options->words) return;
  interrupt->inputs[0] = words_input(options->words, options->slot);
  interrupt->count = 1;
}

/* Starts QEMU with an end of each socket. */
static bool start_qemu(struct guest *guest, const struct options *options, const struct words *words) {
  int device[2], qtest[2] = {-1, -1}, wire = -1;
  struct handed handed[4];
  size_t count = 0;
  if (socketpair(AF_UNIX, SOCK_STREAM | SOCK_CLOEXEC, 0, device) != 0) return false;
  handed[count++] = (struct handed){device[1], DEVICE_FILE};
  channel_open(&guest->session.channel, device[0]);
  if (!words_use_kvm(options->words)) {
    if (socketpair(AF_UNIX, SOCK_STREAM | SOCK_CLOEXEC, 0, qtest) != 0) return false;
    handed[count++] = (struct handed){qtest[1], QTEST_FILE};
    guest->session.interrupt.qtest = qtest[0];
  }
  if (options->net && strncmp(options->net, "user", 4) == 0) {
    if (!wire_pair(&guest->wire, &wire)) return false;
    handed[count++] = (struct handed){wire, WIRE_FILE};
  }
  if (options->has_counter) {
    if (!counter_share(&guest->session.counter)) return false;
    handed[count++] = (struct handed){guest->session.counter.file, COUNTER_FILE};
  }
  guest->process = start(words->list, handed, count, true);
  close(device[1]);
  if (qtest[1] >= 0) close(qtest[1]);
  if (wire >= 0) close(wire);
  return guest->process > 0;
}

/* Waits for a QEMU that has closed its socket: 0 where it ended, or the number of a signal that came before. */
static int wait_for_qemu(struct guest *guest, int *status) {
  if (start_has_ended(guest->process, PATIENCE, status)) return 0;
  say("QEMU has given the adapter up, and goes on without it");
  while (!start_has_ended(guest->process, 100, status)) {
    int ended = loop_signal(guest);
    if (ended == 0) continue;
    *status = start_end(guest->process);
    return ended;
  }
  return 0;
}

/* Ends QEMU where it was started here, and gives the status that em_guest ends with. */
static int end(struct guest *guest, int ended) {
  int status = 0;
  channel_close(&guest->session.channel);
  if (guest->process > 0 && ended == 0) ended = wait_for_qemu(guest, &status);
  else if (guest->process > 0) status = start_end(guest->process);
  if (ended > 0) {
    say("it was ended by signal %d", ended);
    return 128 + ended;
  }
  if (ended < 0) return DIED;
  if (guest->process > 0 && WIFSIGNALED(status)) {
    say("QEMU died of signal %d", WTERMSIG(status));
    if (!guest->session.is_asked) say("that was before it had made the device: docs/guest.md says which QEMU can");
    return DIED;
  }
  return WIFEXITED(status) ? WEXITSTATUS(status) : WELL;
}

static void close_files(struct guest *guest) {
  run_close(&guest->run);
  capture_close(&guest->capture_in);
  if (guest->capture_out && fclose(guest->capture_out) != 0) say("--pcap-out: the capture can't be written");
  warner_end(&guest->warner);
  wire_close(&guest->wire);
  interrupt_close(&guest->session.interrupt);
  counter_close(&guest->session.counter);
  device_free(&guest->session.device);
}

static int serve(struct guest *guest, const struct options *options, const struct words *words, const char *debugger) {
  bool is_ready = open_files(guest, options) && prepare_stops(guest, options, debugger);
  if (is_ready && options->listen) is_ready = listen_at(options->listen, &guest->listener);
  choose_inputs(&guest->session.interrupt, options);
  int status = NOT_OPENED;
  if (is_ready && options->listen) {
    int ended = listen_wait(guest->listener, guest->signals, &guest->session.channel);
    status = end(guest, ended == 0 ? loop_serve(guest) : ended);
  } else if (is_ready && start_qemu(guest, options, words)) {
    status = end(guest, loop_serve(guest));
  }
  listen_end(options->listen, guest->listener);
  if (is_ready && status != NOT_OPENED)
    report(&guest->session.device, &guest->run, guest->wire.lost, &guest->hold.debugger, options->run);
  close_files(guest);
  if (is_ready && options->symbols && !symbols_name(options->run, options->run, options->symbols) && status == WELL)
    status = NOT_OPENED;
  return status;
}

int main(int count, char **given) {
  static struct guest guest;
  struct options options;
  struct words words = {0};
  char plugin[PATH_MAX] = "", debugger[PATH_MAX] = "";
  enum parsed parsed = options_parse(&options, count, given);
  if (parsed != PARSED) return parsed == HELPED ? WELL : BAD_WORDS;
  if (options.name) return symbols_name(options.name, options.name, options.symbols) ? WELL : NOT_OPENED;
  if (!find_beside(plugin, "counter.so") || !find_beside(debugger, "../../em_debug"))
    return say("the folder that it lies in can't be found"), NOT_OPENED;
  if (options.words && !words_make(&words, &options, plugin)) {
    words_free(&words);
    return BAD_WORDS;
  }
  if (options.prints) {
    words_print(&words);
    words_free(&words);
    return WELL;
  }
  guest.listener = guest.session.channel.socket = -1;
  wire_make(&guest.wire);
  run_open_none(&guest.run);
  interrupt_make(&guest.session.interrupt);
  counter_make(&guest.session.counter);
  config_reset(&guest.session.config);
  guest.signals = catch_signals();
  int status = guest.signals < 0 ? NOT_OPENED : serve(&guest, &options, &words, debugger);
  words_free(&words);
  return status;
}
