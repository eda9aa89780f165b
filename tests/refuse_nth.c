/* Preloaded, it counts the requests of a program for memory, its reads and its writes, and refuses one of them.

   The variable REFUSALS names a file of numbers of 64 bits, by which tests/preload.py says what to do and learns what
   was done. There are three each, of requests for memory, reads and writes: which one is refused (0: none), how many
   octets a read or a write moves at most (0: all of them, -1: none), and how many there were. */
#include <errno.h>
#include <fcntl.h>
#include <stdlib.h>
#include <sys/mman.h>
#include <sys/syscall.h>
#include <sys/uio.h>
#include <unistd.h>

enum kind { MEMORY, READ, WRITE, KINDS };
static struct plan {
  long refused[KINDS], most[KINDS], made[KINDS];
} *plan;

void *__libc_malloc(size_t), *__libc_calloc(size_t, size_t), *__libc_realloc(void *, size_t);
void *__libc_memalign(size_t, size_t);

__attribute__((constructor)) static void begin(void) {
  const char *name = getenv("REFUSALS");
  int file = name ? open(name, O_RDWR) : -1;
  void *at = mmap(0, sizeof *plan, PROT_READ | PROT_WRITE, MAP_SHARED, file, 0);
  plan = at == MAP_FAILED ? 0 : at;
  close(file);
}

/* Counts one more of a kind: is it the one to be refused? */
static int refuses(enum kind kind, int error) {
  if (!plan || ++plan->made[kind] != plan->refused[kind]) return 0;
  errno = error;
  return 1;
}

void *malloc(size_t size) { return refuses(MEMORY, ENOMEM) ? 0 : __libc_malloc(size); }
void *calloc(size_t count, size_t size) { return refuses(MEMORY, ENOMEM) ? 0 : __libc_calloc(count, size); }
void *realloc(void *old, size_t size) { return refuses(MEMORY, ENOMEM) ? 0 : __libc_realloc(old, size); }
void *aligned_alloc(size_t align, size_t size) { return refuses(MEMORY, ENOMEM) ? 0 : __libc_memalign(align, size); }
int posix_memalign(void **at, size_t align, size_t size) {
  return refuses(MEMORY, errno) || !(*at = __libc_memalign(align, size)) ? ENOMEM : 0;
}

static size_t at_most(enum kind kind, size_t count) {
  long most = plan ? plan->most[kind] : 0;
  return most < 0 ? 0 : most && count > (size_t)most ? (size_t)most : count;
}

ssize_t read(int from, void *to, size_t count) {
  return refuses(READ, EIO) ? -1 : syscall(SYS_read, from, to, at_most(READ, count));
}
ssize_t write(int to, const void *from, size_t count) {
  return refuses(WRITE, EIO) ? -1 : syscall(SYS_write, to, from, at_most(WRITE, count));
}
ssize_t __read(int from, void *to, size_t count) { return read(from, to, count); }
ssize_t __write(int to, const void *from, size_t count) { return write(to, from, count); }
ssize_t writev(int to, const struct iovec *parts, int count) {
  int first = 0;
  while (first < count - 1 && parts[first].iov_len == 0) first++;
  return count > 0 ? write(to, parts[first].iov_base, parts[first].iov_len) : 0;
}
