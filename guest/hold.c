#include "hold.h"

#include <errno.h>
#include <fcntl.h>
#include <poll.h>
#include <signal.h>
#include <stdio.h>
#include <stdlib.h>
#include <sys/signalfd.h>
#include <sys/wait.h>
#include <unistd.h>

#include "say.h"
#include "start.h"
#include "symbols.h"

void hold_make(struct hold *hold) {
  hold->has_terminal = tcgetattr(STDIN_FILENO, &hold->terminal) == 0;
}

/* Stops QEMU, all of it, so that it takes no more from the terminal; or lets it go on. */
static void stop_qemu(pid_t qemu) {
  siginfo_t seen;
  if (qemu <= 0 || kill(qemu, SIGSTOP) != 0) return;
  while (waitid(P_PID, (id_t)qemu, &seen, WSTOPPED | WEXITED | WNOWAIT) != 0 && errno == EINTR) continue;
}

static void go_on(pid_t qemu) {
  if (qemu > 0) kill(qemu, SIGCONT);
}

/* The terminal, as QEMU has set it. */
struct taken {
  struct termios terminal;
  int flags[3];
};

/* Makes the terminal what it was before QEMU: it echoes, and who reads waits. */
static void take_terminal(const struct hold *hold, struct taken *taken) {
  if (hold->has_terminal && tcgetattr(STDIN_FILENO, &taken->terminal) == 0)
    tcsetattr(STDIN_FILENO, TCSADRAIN, &hold->terminal);
  for (int file = 0; file < 3; file++) {
    taken->flags[file] = fcntl(file, F_GETFL);
    if (taken->flags[file] >= 0) fcntl(file, F_SETFL, taken->flags[file] & ~O_NONBLOCK);
  }
}

static void give_terminal(const struct hold *hold, const struct taken *taken) {
  for (int file = 0; file < 3; file++)
    if (taken->flags[file] >= 0) fcntl(file, F_SETFL, taken->flags[file]);
  if (hold->has_terminal) tcsetattr(STDIN_FILENO, TCSADRAIN, &taken->terminal);
}

/* Waits for em_debug's end: 0, or the number of a signal that ends em_guest, and em_debug with it. (Ctrl-C is typed
   into em_debug, and no matter of ours.) */
static int wait_for(pid_t debugger, int signals) {
  int status, ended = 0;
  while (!start_has_ended(debugger, 0, &status)) {
    struct pollfd file = {signals, POLLIN, 0};
    struct signalfd_siginfo signal;
    if (poll(&file, 1, -1) < 0 || read(signals, &signal, sizeof signal) != (ssize_t)sizeof signal) continue;
    if (signal.ssi_signo == SIGCHLD || signal.ssi_signo == SIGINT || ended != 0) continue;
    ended = (int)signal.ssi_signo;
    kill(debugger, SIGTERM);
  }
  /* (that a Ctrl-C came at the end is forgotten too) */
  struct signalfd_siginfo signal;
  while (ended == 0 && read(signals, &signal, sizeof signal) == (ssize_t)sizeof signal)
    if (signal.ssi_signo != SIGCHLD && signal.ssi_signo != SIGINT) ended = (int)signal.ssi_signo;
  return ended;
}

/* A copy of the run in which program counters have names; NULL where there is none. */
static char *name_copy(const struct hold *hold) {
  char *path = NULL;
  if (!hold->symbols || asprintf(&path, "%s.XXXXXX", hold->run) < 0) return NULL;
  int file = mkstemp(path);
  if (file >= 0) close(file);
  if (file >= 0 && symbols_name(hold->run, path, hold->symbols)) return path;
  if (file >= 0) unlink(path);
  free(path);
  return NULL;
}

int hold_guest(struct hold *hold, pid_t qemu, int signals) {
  struct taken taken;
  stop_qemu(qemu);
  char *named = name_copy(hold);
  take_terminal(hold, &taken);
  pid_t debugger = start(debugger_words(&hold->debugger, named ? named : hold->run), NULL, 0, false);
  int ended = debugger > 0 ? wait_for(debugger, signals) : 0;
  give_terminal(hold, &taken);
  if (named) unlink(named);
  free(named);
  go_on(qemu);
  return ended;
}
