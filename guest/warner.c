#include "warner.h"

#include <errno.h>
#include <fcntl.h>
#include <string.h>
#include <unistd.h>

#include "say.h"
#include "start.h"

/* What is asked behind lines, and how the answer to it begins: so it is known that they are all answered. */
static const char question[] = "help quit\n", answer[] = "quit:", warning[] = "warning ";

bool warner_start(struct warner *warner, char **words, const char *run) {
  int in[2], out[2];
  warner->told = warner->have = 0;
  warner->run = open(run, O_RDONLY | O_CLOEXEC);
  if (warner->run < 0 || pipe2(in, O_CLOEXEC) != 0) return say("--stop-at: %s", strerror(errno)), false;
  if (pipe2(out, O_CLOEXEC) != 0) return say("--stop-at: %s", strerror(errno)), false;
  const struct handed handed[] = {{in[0], STDIN_FILENO}, {out[1], STDOUT_FILENO}};
  warner->process = start(words, handed, 2, true);
  close(in[0]);
  close(out[1]);
  warner->in = in[1];
  warner->out = out[0];
  if (warner->process < 0) warner->process = 0;
  return warner->process > 0;
}

void warner_end(struct warner *warner) {
  if (warner->process == 0) return;
  close(warner->in);
  close(warner->out);
  close(warner->run);
  start_end(warner->process);
  warner->process = 0;
}

static bool write_all(int file, const char *text, size_t length) {
  while (length > 0) {
    ssize_t put = write(file, text, length);
    if (put < 0 && errno == EINTR) continue;
    if (put <= 0) return false;
    text += put;
    length -= (size_t)put;
  }
  return true;
}

/* How much of a line of a run is the event alone: a typed line has no source, and no expected answer is wanted. */
static size_t event_of(const char *line, size_t length) {
  if (line[0] == '#') return 0;
  for (size_t i = 0; i + 2 < length; i++)
    if (line[i] == ' ' && line[i + 2] == ' ' && strchr("=@#", line[i + 1])) return i;
  return length;
}

/* Takes the next whole line of the run into `text`, as an event alone; false where there is none yet. */
static bool take_line(struct warner *warner) {
  ssize_t got = pread(warner->run, warner->text, WARNER_ROOM, (off_t)warner->told);
  const char *end = got > 0 ? memchr(warner->text, '\n', (size_t)got) : NULL;
  if (!end) return false;
  size_t length = (size_t)(end - warner->text);
  warner->told += length + 1;
  warner->have = event_of(warner->text, length);
  if (warner->have > 0) warner->text[warner->have++] = '\n';
  return true;
}

/* Hears the answers, up to that to the question; false where it has ended. */
static bool hear(struct warner *warner, char *warnings, size_t room) {
  size_t have = 0;
  for (;;) {
    ssize_t got = read(warner->out, warner->text + have, WARNER_ROOM - 1 - have);
    if (got < 0 && errno == EINTR) continue;
    if (got <= 0) return false;
    have += (size_t)got;
    warner->text[have] = '\0';
    char *line = warner->text, *end;
    for (; (end = strchr(line, '\n')); line = end + 1) {
      *end = '\0';
      if (strncmp(line, answer, strlen(answer)) == 0) return true;
      size_t used = strlen(warnings), length = (size_t)(end - line);
      if (strncmp(line, warning, strlen(warning)) != 0 || used + length + 2 > room) continue;
      memcpy(warnings + used, line, length);
      memcpy(warnings + used + length, "\n", 2);
    }
    have = strlen(line);
    memmove(warner->text, line, have);
  }
}

void warner_ask(struct warner *warner, char *warnings, size_t room) {
  warnings[0] = '\0';
  while (warner->process != 0 && take_line(warner)) {
    if (warner->have == 0) continue;
    if (write_all(warner->in, warner->text, warner->have) && write_all(warner->in, question, strlen(question)) &&
        hear(warner, warnings, room))
      continue;
    say("--stop-at: em_debug, which warns, has ended: there are no warnings from here on");
    warner_end(warner);
  }
}
