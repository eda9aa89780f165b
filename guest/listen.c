#include "listen.h"

#include <errno.h>
#include <poll.h>
#include <signal.h>
#include <string.h>
#include <sys/signalfd.h>
#include <sys/socket.h>
#include <unistd.h>

#include "address.h"
#include "say.h"

bool listen_at(const char *path, int *listener) {
  struct sockaddr_un address;
  if (!address_make(&address, path, strlen(path))) {
    say("--listen: a socket's path has 1 to %zu octets", sizeof address.sun_path - 1);
    return false;
  }
  *listener = socket(AF_UNIX, SOCK_STREAM | SOCK_CLOEXEC, 0);
  if (*listener >= 0 && bind(*listener, address_of(&address), sizeof address) == 0) {
    if (listen(*listener, 4) == 0) return true;
  }
  say("--listen %s: %s", path, strerror(errno));
  if (*listener >= 0) close(*listener);
  *listener = -1;
  return false;
}

int listen_wait(int listener, int signals, struct channel *channel) {
  for (;;) {
    struct pollfd files[] = {{listener, POLLIN, 0}, {signals, POLLIN, 0}};
    struct signalfd_siginfo signal;
    if (poll(files, 2, -1) < 0 && errno != EINTR) return SIGTERM;
    if (files[1].revents && read(signals, &signal, sizeof signal) == (ssize_t)sizeof signal &&
        signal.ssi_signo != SIGCHLD)
      return (int)signal.ssi_signo;
    if (!files[0].revents) continue;
    int descriptor = accept4(listener, NULL, NULL, SOCK_CLOEXEC);
    if (descriptor < 0) continue;
    channel_open(channel, descriptor);
    return 0;
  }
}

void listen_end(const char *path, int listener) {
  if (listener < 0) return;
  close(listener);
  unlink(path);
}
