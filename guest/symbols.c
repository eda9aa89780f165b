#include "symbols.h"

#include <errno.h>
#include <inttypes.h>
#include <signal.h>
#include <spawn.h>
#include <stddef.h>
#include <stdint.h>
#include <stdio.h>
#include <stdlib.h>
#include <string.h>
#include <sys/mman.h>
#include <sys/stat.h>
#include <sys/wait.h>
#include <unistd.h>

#include "say.h"

enum { MOST_NAME = 256 };

extern char **environ;

/* A program counter, and its name: empty where it has none. */
struct symbol {
  uint64_t counter;
  char name[MOST_NAME];
};

struct symbols {
  struct symbol *list;
  size_t count, room;
};

/* Where in a line the digits of its source's program counter begin, with their `0x`; NULL where there is none. */
static char *counter_in(char *line) {
  static const char mark[] = " @ ", before[] = "before ";
  char *at = strstr(line, mark);
  if (!at) return NULL;
  at += strlen(mark);
  if (strncmp(at, before, strlen(before)) == 0) at += strlen(before);
  return strncmp(at, "0x", 2) == 0 ? at : NULL;
}

static bool add(struct symbols *symbols, uint64_t counter) {
  if (symbols->count > 0 && symbols->list[symbols->count - 1].counter == counter) return true;
  if (symbols->count == symbols->room) {
    size_t room = symbols->room ? 2 * symbols->room : 1024;
    struct symbol *list = realloc(symbols->list, room * sizeof *list);
    if (!list) return false;
    symbols->list = list;
    symbols->room = room;
  }
  symbols->list[symbols->count].counter = counter;
  symbols->list[symbols->count++].name[0] = '\0';
  return true;
}

static int by_counter(const void *left, const void *right) {
  const struct symbol *a = left, *b = right;
  return (a->counter > b->counter) - (a->counter < b->counter);
}

/* Sorts them, and leaves each once. */
static void sort(struct symbols *symbols) {
  size_t kept = 0;
  if (symbols->count == 0) return;
  qsort(symbols->list, symbols->count, sizeof *symbols->list, by_counter);
  for (size_t i = 1; i < symbols->count; i++)
    if (symbols->list[i].counter != symbols->list[kept].counter) symbols->list[++kept] = symbols->list[i];
  symbols->count = kept + 1;
}

static struct symbol *find(const struct symbols *symbols, uint64_t counter) {
  struct symbol key = {.counter = counter};
  if (symbols->count == 0) return NULL;
  return bsearch(&key, symbols->list, symbols->count, sizeof *symbols->list, by_counter);
}

/* All program counters of a run. (A run of millions of accesses has them again and again: they are sorted now and
 * then.) */
static bool collect(FILE *run, struct symbols *symbols) {
  char *line = NULL;
  size_t room = 0, sort_at = 65536;
  bool is_whole = true;
  while (is_whole && getline(&line, &room, run) > 0) {
    const char *at = counter_in(line);
    if (at) is_whole = add(symbols, strtoull(at, NULL, 16));
    if (symbols->count < sort_at) continue;
    sort(symbols);
    sort_at = 65536 + 2 * symbols->count;
  }
  free(line);
  sort(symbols);
  return is_whole && !ferror(run);
}

/* Asks addr2line, whose input and output are files. */
static bool ask(const char *program, bool is_module, int in, int out) {
  char *words[] = {"addr2line", "-a", "-f", "-i", "-s", "-e", (char *)(uintptr_t)program, is_module ? "-j" : NULL,
                   ".text",     NULL};
  posix_spawn_file_actions_t files;
  posix_spawnattr_t how;
  sigset_t none;
  pid_t process;
  int status = 0;
  sigemptyset(&none);
  if (posix_spawn_file_actions_init(&files) != 0) return false;
  if (posix_spawnattr_init(&how) != 0) return posix_spawn_file_actions_destroy(&files), false;
  posix_spawnattr_setsigmask(&how, &none);
  posix_spawnattr_setflags(&how, POSIX_SPAWN_SETSIGMASK);
  posix_spawn_file_actions_adddup2(&files, in, STDIN_FILENO);
  posix_spawn_file_actions_adddup2(&files, out, STDOUT_FILENO);
  int error = posix_spawnp(&process, words[0], &files, &how, words, environ);
  posix_spawn_file_actions_destroy(&files);
  posix_spawnattr_destroy(&how);
  if (error != 0) {
    say("--symbols: addr2line can't be started (%s); Debian's binutils has it", strerror(error));
    return false;
  }
  while (waitpid(process, &status, 0) < 0)
    if (errno != EINTR) return false;
  if (status == 0) return true;
  say("--symbols %s: addr2line can't read it", program);
  return false;
}

static bool is_header(const char *place) {
  const char *colon = strchr(place, ':');
  return colon && colon - place > 2 && strncmp(colon - 2, ".h", 2) == 0;
}

/* Reads the answers. Of functions that were put into others the innermost counts that stands in no header. Where the
   program has no lines, as a kernel's own module has none, the function stands alone. */
static void read_names(FILE *answers, struct symbols *symbols, uint64_t base) {
  char *function = NULL, *place = NULL;
  size_t function_room = 0, place_room = 0;
  struct symbol *symbol = NULL;
  bool is_final = true;
  while (getline(&function, &function_room, answers) > 0) {
    if (strncmp(function, "0x", 2) == 0) {
      symbol = find(symbols, strtoull(function, NULL, 16) + base);
      is_final = false;
      continue;
    }
    if (getline(&place, &place_room, answers) <= 0) break;
    function[strcspn(function, "\n")] = '\0';
    place[strcspn(place, " \n")] = '\0';
    if (!symbol || is_final || function[0] == '?') continue;
    bool has_line = place[0] != '?';
    if (symbol->name[0] == '\0' || (has_line && !is_header(place)))
      snprintf(symbol->name, sizeof symbol->name, "%s%s%s%s", function, strchr(function, '(') ? "" : "()",
               has_line ? ", " : "", has_line ? place : "");
    is_final = has_line && !is_header(place);
  }
  free(function);
  free(place);
}

/* Names all of them. */
static bool name_all(struct symbols *symbols, const char *program, bool is_module, uint64_t base) {
  int in = memfd_create("counters", MFD_CLOEXEC), out = memfd_create("names", MFD_CLOEXEC);
  bool is_whole = in >= 0 && out >= 0;
  for (size_t i = 0; is_whole && i < symbols->count; i++) {
    if (symbols->list[i].counter < base) continue;
    is_whole = dprintf(in, "0x%" PRIx64 "\n", symbols->list[i].counter - base) > 0;
  }
  is_whole =
      is_whole && lseek(in, 0, SEEK_SET) == 0 && ask(program, is_module, in, out) && lseek(out, 0, SEEK_SET) == 0;
  FILE *answers = is_whole ? fdopen(out, "r") : NULL;
  if (answers) read_names(answers, symbols, base);
  if (answers) fclose(answers);
  else if (out >= 0) close(out);
  if (in >= 0) close(in);
  return answers != NULL;
}

/* Writes the run with names in it. */
static bool rewrite(FILE *run, FILE *to, const struct symbols *symbols) {
  char *line = NULL;
  size_t room = 0;
  bool is_whole = true;
  while (is_whole && getline(&line, &room, run) > 0) {
    char *at = counter_in(line), *end = NULL;
    const struct symbol *symbol = at ? find(symbols, strtoull(at, &end, 16)) : NULL;
    if (symbol && symbol->name[0] != '\0') {
      *at = '\0';
      is_whole = fprintf(to, "%s%s%s", line, symbol->name, end) > 0;
    } else {
      is_whole = fputs(line, to) >= 0;
    }
  }
  free(line);
  return is_whole && !ferror(run) && fflush(to) == 0;
}

/* Puts a file with names into the place of the run. */
static bool replace(FILE *run, const char *path, const struct symbols *symbols) {
  size_t room = strlen(path) + 8;
  struct stat seen;
  char *made = malloc(room);
  if (!made) return false;
  snprintf(made, room, "%s.XXXXXX", path);
  int descriptor = mkstemp(made);
  FILE *to = descriptor < 0 ? NULL : fdopen(descriptor, "w");
  bool is_whole =
      to && fstat(fileno(run), &seen) == 0 && fchmod(descriptor, seen.st_mode & 0777) == 0 && rewrite(run, to, symbols);
  if (to && fclose(to) != 0) is_whole = false;
  if (is_whole && rename(made, path) != 0) is_whole = false;
  if (!is_whole && descriptor >= 0) unlink(made);
  free(made);
  return is_whole;
}

bool symbols_name(const char *path, const char *to, const char *text) {
  const char *mark = strrchr(text, '@');
  char *program = strndup(text, mark ? (size_t)(mark - text) : strlen(text)), *end = NULL;
  uint64_t base = mark ? strtoull(mark + 1, &end, 16) : 0;
  struct symbols symbols = {0};
  FILE *run = fopen(path, "re");
  bool is_whole = false;
  if (mark && (end == mark + 1 || *end != '\0')) {
    say("--symbols: FILE@ADDRESS is wanted, and the address in hexadecimal digits");
  } else if (!run) {
    say("%s: %s", path, strerror(errno));
  } else if (program && collect(run, &symbols) && name_all(&symbols, program, mark != NULL, base)) {
    rewind(run);
    is_whole = replace(run, to, &symbols);
    if (!is_whole) say("%s can't be written with names in it", to);
  }
  if (run) fclose(run);
  free(program);
  free(symbols.list);
  return is_whole;
}
