/* A right driver over the harness of examples/c/driver.c, which writes to its memory what no access tells: it clears the
   status of descriptors there, and gives buffers back four at a time. 10,000 frames arrive in bursts; each comes once. */
#define main example
#include "../../examples/c/driver.c"
#undef main

enum { FRAMES = 10000, BATCH = 4 };

static unsigned wanted, taken, failed;

/* Takes what is there; the tail is written behind each fourth packet, and the other descriptors are mended unseen. */
static void poll(void) {
  while (ring[next].status & DD) {
    unsigned number;
    memcpy(&number, ram + BUFFERS_AT + SIZE * next + 32, sizeof number);
    if (ring[next].length != 60 || number != wanted) failed++;
    wanted++;
    ring[next].status = 0;
    ring[next].length = 0;
    if (++taken % BATCH == 0) WRITE(RDT, next);
    next = (next + 1) % COUNT;
  }
}

int main(void) {
  static const uint8_t mac[6] = {0x52, 0x54, 0x00, 0x12, 0x34, 0x56};
  uint8_t frame[60] = {0xFF, 0xFF, 0xFF, 0xFF, 0xFF, 0xFF};
  unsigned random = 1;
  must(em_make(&machine, MEMORY, 1048576, mac));
  must(em_attach(&machine, &attached));
  must(em_set_link(&machine, true));
  start();
  for (unsigned number = 0; number < FRAMES;) {
    /* one to three frames, and then the driver looks */
    random = random * 1103515245u + 12345u;
    for (unsigned left = 1 + random / 65536 % 3; left > 0 && number < FRAMES; left--, number++) {
      memcpy(frame + 32, &number, sizeof number);
      ARRIVE(frame, sizeof frame);
    }
    poll();
  }
  failed += wanted != FRAMES;
  em_free(&machine);
  printf("%u passed, %u failed\n", taken, failed);
  (void)example;
  (void)receive;
  return failed != 0;
}
