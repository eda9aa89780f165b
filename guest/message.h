/* The messages of QEMU's x-pci-proxy-dev, as its include/hw/remote/mpqemu-link.h defines them: a header of 16 octets
   (command, size), data of that size, and file descriptors beside the first octet. Each number is in the host's own
   order, since both ends are on one host.

   QEMU asks, and this end answers by REPLY, but for SYNC_MEMORY and SET_INTERRUPT, which have no answer. */
#ifndef GUEST_MESSAGE_H
#define GUEST_MESSAGE_H

#include <stdbool.h>
#include <stddef.h>
#include <stdint.h>

enum command {
  SYNC_MEMORY = 0,  /* guest memory lies in these files: a descriptor for each region */
  REPLY = 1,        /* an answer; QEMU sends none */
  CONFIG_WRITE = 2, /* an access of PCI configuration space */
  CONFIG_READ = 3,
  BAR_WRITE = 4, /* an access of what a base address register maps */
  BAR_READ = 5,
  SET_INTERRUPT = 6, /* two descriptors: one to interrupt by, one by which KVM asks whether it still does */
  DEVICE_RESET = 7   /* the guest's machine was reset */
};

enum { MOST_REGIONS = 8, MOST_DATA = 24 * MOST_REGIONS };

struct config_access {
  uint32_t address, value, length;
};

struct bar_access {
  uint64_t address, value; /* the address is the bus's, and not an offset */
  uint32_t size;
  bool is_memory;
};

/* Octets of guest memory, and where they lie in a file. */
struct region {
  uint64_t address, size;
  int64_t offset;
};

struct message {
  enum command command;
  union {
    struct config_access config;
    struct bar_access bar;
    struct region regions[MOST_REGIONS];
  };
  int descriptors[MOST_REGIONS]; /* only SYNC_MEMORY and SET_INTERRUPT have any; whoever obeys these takes them */
  size_t count;
};

/* One end of a socket, with what came of a message that is not whole yet. */
struct channel {
  int socket;
  uint8_t octets[16 + MOST_DATA];
  size_t have;
  int descriptors[MOST_REGIONS];
  size_t count;
};

enum received {
  WHOLE, /* a message came */
  WAITS, /* none is whole yet */
  ENDED, /* the other end has closed */
  BROKEN /* what came is no message, and where the next one begins is not known */
};

void channel_open(struct channel *channel, int socket);

/* Closes the socket, and the descriptors of a message that is not whole. */
void channel_close(struct channel *channel);

/* Takes the next message, without waiting for it. Where it is BROKEN, `why` says in what. */
enum received channel_receive(struct channel *channel, struct message *message, const char **why);

/* Sends the answer to a message, without waiting; false where the other end does not take it. */
bool channel_reply(struct channel *channel, uint64_t value);

#endif
