#include "loop.h"

#include <errno.h>
#include <inttypes.h>
#include <poll.h>
#include <signal.h>
#include <sys/signalfd.h>
#include <sys/socket.h>
#include <time.h>
#include <unistd.h>

#include "say.h"

enum {
  QEMU,
  WIRE,
  QTEST,
  RESAMPLE,
  SIGNALS,
  LISTENER,
  FILES,
  MOST_FRAMES = 32,    /* that are taken before QEMU is looked at again */
  MOST_WARNINGS = 4096 /* octets of those that come at once */
};

static const uint64_t SECOND = 1000000000, MILLISECOND = 1000000;

static uint64_t now(clockid_t clock) {
  struct timespec time;
  clock_gettime(clock, &time);
  return (uint64_t)time.tv_sec * SECOND + (uint64_t)time.tv_nsec;
}

/* A frame passes on the wire. */
static void capture(struct guest *guest, const uint8_t *frame, size_t length) {
  if (!guest->capture_out || capture_put(guest->capture_out, now(CLOCK_REALTIME), frame, length)) return;
  say("--pcap-out: the capture can't be written: it ends here, and the guest goes on");
  fclose(guest->capture_out);
  guest->capture_out = NULL;
}

void loop_sent(void *whose, const uint8_t *frame, size_t length) {
  struct guest *guest = whose;
  capture(guest, frame, length);
  wire_send(&guest->wire, frame, length);
}

/* Lets em_debug have the terminal, while the guest waits. */
static void hold(struct guest *guest, const char *why) {
  say("the guest is held behind line %" PRIu64 " of the run: %s. `quit` lets it go on", guest->run.lines, why);
  guest->ended = hold_guest(&guest->hold, guest->process, guest->signals);
}

void loop_accessed(void *whose, uint32_t offset) {
  struct guest *guest = whose;
  stop_accessed(&guest->stops, offset);
}

void loop_look(void *whose) {
  struct guest *guest = whose;
  char warnings[MOST_WARNINGS] = "", why[MOST_WHY];
  run_flush(&guest->run);
  if (guest->stops.count == 0 || guest->ended != 0) return;
  if (guest->warner.process != 0) warner_ask(&guest->warner, warnings, sizeof warnings);
  if (stop_is_due(&guest->stops, &guest->session.device.tally, warnings, why)) hold(guest, why);
}

static void arrive(struct guest *guest, const uint8_t *frame, size_t length) {
  if (device_loops(&guest->session.device)) return;
  capture(guest, frame, length);
  device_arrive(&guest->session.device, frame, length);
  session_turn(&guest->session);
  loop_look(guest);
}

static void take_wire(struct guest *guest) {
  uint8_t frame[MOST_FRAME];
  for (int i = 0; i < MOST_FRAMES && !device_is_full(&guest->session.device); i++) {
    size_t length = wire_take(&guest->wire, frame, sizeof frame);
    if (length == 0) return;
    arrive(guest, frame, length);
  }
}

/* Lets the frames of --pcap-in arrive whose time has come; in how many milliseconds the next one is due, or -1. */
static int take_capture(struct guest *guest) {
  struct capture *in = &guest->capture_in;
  if (!in->file && !in->has_frame) return -1;
  if (guest->began == 0) {
    if (!device_receives(&guest->session.device)) return 10;
    guest->began = now(CLOCK_MONOTONIC);
  }
  for (int i = 0; i < MOST_FRAMES && capture_peek(in); i++) {
    uint64_t passed = now(CLOCK_MONOTONIC) - guest->began;
    if (in->due > passed) {
      uint64_t rest = (in->due - passed) / MILLISECOND + 1;
      return rest < 1000 ? (int)rest : 1000;
    }
    if (in->length > 0 && in->length <= MOST_FRAME) arrive(guest, in->frame, in->length);
    capture_take(in);
  }
  return in->has_frame || in->file ? 0 : -1;
}

/* (That QEMU's process ended is seen at its socket too.) */
int loop_signal(struct guest *guest) {
  struct signalfd_siginfo signal;
  if (read(guest->signals, &signal, sizeof signal) != (ssize_t)sizeof signal || signal.ssi_signo == SIGCHLD) return 0;
  return (int)signal.ssi_signo;
}

static void turn_away(struct guest *guest) {
  int other = accept4(guest->listener, NULL, NULL, SOCK_CLOEXEC);
  if (other < 0) return;
  close(other);
  say("a second QEMU was turned away: one is here already");
}

/* What is waited for. (poll leaves out what is -1.) */
static void watch(const struct guest *guest, struct pollfd files[FILES]) {
  const struct session *session = &guest->session;
  for (int i = 0; i < FILES; i++) files[i] = (struct pollfd){.events = POLLIN};
  files[QEMU].fd = session->channel.socket;
  files[WIRE].events =
      (short)((device_is_full(&session->device) ? 0 : POLLIN) | (wire_waits(&guest->wire) ? POLLOUT : 0));
  files[WIRE].fd = files[WIRE].events ? guest->wire.file : -1;
  files[QTEST].fd = session->interrupt.qtest;
  files[RESAMPLE].fd = session->interrupt.resample;
  files[SIGNALS].fd = guest->signals;
  files[LISTENER].fd = guest->listener;
}

int loop_serve(struct guest *guest) {
  struct session *session = &guest->session;
  for (;;) {
    int due = take_capture(guest);
    struct pollfd files[FILES];
    watch(guest, files);
    if (poll(files, FILES, session->has_more ? 0 : due) < 0 && errno != EINTR) return -1;
    int signal = files[SIGNALS].revents ? loop_signal(guest) : 0;
    if (signal == SIGINT && stop_has(&guest->stops, STOP_KEY)) hold(guest, "Ctrl-C");
    else if (signal != 0) return signal;
    if (files[LISTENER].revents) turn_away(guest);
    if (files[QTEST].revents) interrupt_answer(&session->interrupt);
    if (files[RESAMPLE].revents) interrupt_resample(&session->interrupt);
    if (files[QEMU].revents) {
      enum received took = session_serve(session);
      if (took == ENDED) return 0;
      if (took == BROKEN) return -1;
    }
    if (files[WIRE].revents) wire_go_on(&guest->wire);
    if (files[WIRE].revents) take_wire(guest);
    if (session->has_more) {
      session_turn(session);
      loop_look(guest);
    }
    if (guest->ended != 0) return guest->ended;
  }
}
