#include "start.h"

#include <errno.h>
#include <fcntl.h>
#include <signal.h>
#include <string.h>
#include <sys/prctl.h>
#include <sys/wait.h>
#include <time.h>
#include <unistd.h>

#include "say.h"

enum { MOST_HANDED = 8, ABOVE = 200, PATIENCE = 2000 };

/* In the child: gives each descriptor its number. They are moved out of the way of the numbers first. */
static bool place(const struct handed *handed, size_t count) {
  int moved[MOST_HANDED];
  for (size_t i = 0; i < count; i++) {
    moved[i] = fcntl(handed[i].descriptor, F_DUPFD_CLOEXEC, ABOVE);
    if (moved[i] < 0) return false;
  }
  for (size_t i = 0; i < count; i++)
    if (dup2(moved[i], handed[i].number) < 0) return false;
  return true;
}

/* In the child: becomes the program, or writes why not. */
static void become(char **words, const struct handed *handed, size_t count, bool is_deaf, pid_t parent, int why) {
  sigset_t blocked;
  int error = 0;
  sigemptyset(&blocked);
  if (is_deaf) sigaddset(&blocked, SIGINT);
  sigprocmask(SIG_SETMASK, &blocked, NULL);
  signal(SIGPIPE, SIG_DFL);
  prctl(PR_SET_PDEATHSIG, SIGTERM);
  if (getppid() != parent) _exit(127);
  if (place(handed, count)) execvp(words[0], words);
  error = errno;
  ssize_t put = write(why, &error, sizeof error);
  (void)put; /* the parent is gone then */
  _exit(127);
}

pid_t start(char **words, const struct handed *handed, size_t count, bool is_deaf) {
  int why[2], error = 0;
  pid_t parent = getpid();
  if (count > MOST_HANDED || pipe2(why, O_CLOEXEC) != 0) return -1;
  pid_t process = fork();
  if (process == 0) become(words, handed, count, is_deaf, parent, why[1]);
  close(why[1]);
  bool has_failed = process < 0 || read(why[0], &error, sizeof error) == (ssize_t)sizeof error;
  close(why[0]);
  if (!has_failed) return process;
  say("%s can't be started: %s", words[0], strerror(process < 0 ? errno : error));
  if (process > 0) waitpid(process, NULL, 0);
  return -1;
}

bool start_has_ended(pid_t process, int milliseconds, int *status) {
  const struct timespec pause = {.tv_nsec = 10 * 1000 * 1000};
  for (int waited = 0;; waited += 10) {
    pid_t ended = waitpid(process, status, WNOHANG);
    if (ended == process || (ended < 0 && errno != EINTR)) return true;
    if (waited >= milliseconds) return false;
    nanosleep(&pause, NULL);
  }
}

int start_end(pid_t process) {
  int status = 0;
  kill(process, SIGTERM);
  if (start_has_ended(process, PATIENCE, &status)) return status;
  kill(process, SIGKILL);
  waitpid(process, &status, 0);
  return status;
}
