/* The heap of the library: the three functions by which proved code takes memory, over those of the C library.

   What the proofs rest on here: a block is aligned to each power of two up to 16 that divides its size, and is nobody
   else's until it is freed. malloc and realloc of the C library promise both. */
#include <stdbool.h>
#include <stddef.h>
#include <stdlib.h>

/* Whether there is memory, and where; where there is none, a pointer that is not null and owns nothing. */
struct tried {
  bool ok;
  void *at;
};

struct tried rattle_alloc(size_t octets, size_t alignment);
struct tried rattle_realloc(void *block, size_t kept, size_t octets, size_t alignment);
void rattle_dealloc(void *block);

static char nothing;

static struct tried tried(void *block) {
  struct tried outcome = {block != NULL, block != NULL ? block : &nothing};
  return outcome;
}

/* A block of no octets is one of as many as its alignment, so that it too has a place of its own. */
static size_t some(size_t octets, size_t alignment) { return octets != 0 ? octets : alignment; }

/* A new block. */
struct tried rattle_alloc(size_t octets, size_t alignment) { return tried(malloc(some(octets, alignment))); }

/* A block made longer or shorter, which may move; where that fails it stays as it was. */
struct tried rattle_realloc(void *block, size_t kept, size_t octets, size_t alignment) {
  (void)kept;
  return tried(realloc(block, some(octets, alignment)));
}

/* A block is given back. */
void rattle_dealloc(void *block) { free(block); }
