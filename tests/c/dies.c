/* A process whose run is kept dies: in the middle of its calls by each of five ways, and killed from outside at any
   moment. What its calls did that had returned stands in the file, whole, and perhaps the one that had not. `dies
   FOLDER ROUNDS`, and `dies FOLDER ROUNDS mapped` of a run that is kept by a mapping; the last line is `N passed, M
   failed`. */
#define _DEFAULT_SOURCE
#include "harness.h"

#include <assert.h>
#include <signal.h>
#include <stdlib.h>
#include <sys/mman.h>
#include <sys/resource.h>
#include <sys/wait.h>
#include <unistd.h>

enum { TEXT = 1 << 26, CALLS = 3000 };

static char path[4000], *text;
static volatile size_t *returned;
static bool is_mapped;

/* calls without end, or until so many have returned */
static void drive(size_t calls) {
  static uint8_t frame[1514];
  em_machine m = EM_NO_MACHINE;
  em_note note;
  uint32_t value;
  memset(frame, 0xFF, 6);
  if (em_make(&m, MEMORY, BUDGET, MAC) != EM_OK) _exit(1);
  if ((is_mapped ? em_record_mapped(&m, path) : em_record_to(&m, path)) != EM_OK) _exit(1);
  while (*returned < calls) {
    uint32_t why = *returned % 9 == 8 ? EM_ARRIVE(&m, frame, sizeof frame, &note)
      : *returned % 2 ? EM_READ(&m, RDT, &value) : EM_WRITE(&m, RDT, (uint32_t)*returned);
    if (why != EM_OK) _exit(2);
    ++*returned;
  }
}

static void die(int way) {
  switch (way) {
    case 0: kill(getpid(), SIGKILL); break;
    case 1: *(volatile char *)mmap(NULL, 1, PROT_NONE, MAP_PRIVATE | MAP_ANONYMOUS, -1, 0) = 1; break;
    case 2: abort();
    case 3: _exit(9);
    case 4: assert(way == 5);
  }
}

/* What stands in the file: how many lines of calls, and whether each has the form of one. No octet is zero; behind a
   mapping's last line stand blanks, and what was cut, or nothing where its newline is the last octet before the file
   grows. */
static size_t lines(bool *are_whole) {
  FILE *file = fopen(path, "r");
  size_t length = file ? fread(text, 1, TEXT - 1, file) : 0, count = 0;
  if (file) fclose(file);
  text[length] = 0;
  *are_whole = strlen(text) == length && (!is_mapped || length == 0 || strchr(" \n", text[length - 1]) != NULL);
  for (char *at = text, *end; (end = strchr(at, '\n')) != NULL; at = end + 1) {
    *end = 0;
    if (*at == '#') continue;
    count++;
    if (!strstr(at, " =") || !strstr(at, "dies.c:") || !strchr("wra", *at)) *are_whole = false;
  }
  return count;
}

static void is_as_it_was(bool at_rest) {
  bool are_whole;
  size_t count = lines(&are_whole);
  MUST(are_whole);
  MUST(count == *returned || (!at_rest && count == *returned + 1));
}

int main(int words, char **word) {
  if (words < 3) return 1;
  is_mapped = words > 3;
  snprintf(path, sizeof path, "%s/dies.em", word[1]);
  text = malloc(TEXT);
  returned = mmap(NULL, sizeof *returned, PROT_READ | PROT_WRITE, MAP_SHARED | MAP_ANONYMOUS, -1, 0);
  if (text == NULL || returned == MAP_FAILED) return 1;
  for (int round = 0, rounds = atoi(word[2]); round < rounds + 5; round++) {
    int way = round - rounds, status;
    *returned = 0;
    unlink(path);
    pid_t child = fork();
    if (child == 0) {
      const struct rlimit none = {0, 0};
      setrlimit(RLIMIT_CORE, &none);
      if (freopen("/dev/null", "w", stderr) == NULL) _exit(3);
      for (int i = 1; i < 32; i++) signal(i, SIG_DFL); /* (a sanitizer has taken some) */
      drive(way < 0 ? SIZE_MAX : CALLS);
      die(way);
      _exit(4);
    }
    if (way < 0) usleep((useconds_t)(500 + rand() % 15000)), kill(child, SIGKILL);
    waitpid(child, &status, 0);
    CHECK(way == 3 ? WIFEXITED(status) && WEXITSTATUS(status) == 9 : WIFSIGNALED(status));
    is_as_it_was(way >= 0);
  }
  free(text);
  return tell_counts();
}
