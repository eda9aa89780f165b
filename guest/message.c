#include "message.h"

#include <errno.h>
#include <string.h>
#include <sys/socket.h>
#include <unistd.h>

enum { HEADER = 16 };

/* How many octets of data each message has, and how many descriptors. */
static const struct form {
  uint32_t length;
  size_t least, most;
} forms[] = {
    [SYNC_MEMORY] = {MOST_DATA, 1, MOST_REGIONS},
    [CONFIG_WRITE] = {12, 0, 0},
    [CONFIG_READ] = {12, 0, 0},
    [BAR_WRITE] = {24, 0, 0},
    [BAR_READ] = {24, 0, 0},
    [SET_INTERRUPT] = {0, 2, 2},
    [DEVICE_RESET] = {0, 0, 0},
};

static void close_all(int *descriptors, size_t *count) {
  for (size_t i = 0; i < *count; i++) close(descriptors[i]);
  *count = 0;
}

void channel_open(struct channel *channel, int socket) {
  *channel = (struct channel){.socket = socket};
}

void channel_close(struct channel *channel) {
  close_all(channel->descriptors, &channel->count);
  if (channel->socket >= 0) close(channel->socket);
  channel->socket = -1;
}

static uint32_t number32(const uint8_t *at) {
  uint32_t value;
  memcpy(&value, at, sizeof value);
  return value;
}

static uint64_t number64(const uint8_t *at) {
  uint64_t value;
  memcpy(&value, at, sizeof value);
  return value;
}

/* Keeps the descriptors that came beside octets; false where they are more than a message has. */
static bool keep_descriptors(struct channel *channel, struct msghdr *head) {
  bool is_well = !(head->msg_flags & MSG_CTRUNC);
  for (struct cmsghdr *part = CMSG_FIRSTHDR(head); part; part = CMSG_NXTHDR(head, part)) {
    if (part->cmsg_level != SOL_SOCKET || part->cmsg_type != SCM_RIGHTS) continue;
    size_t count = (part->cmsg_len - CMSG_LEN(0)) / sizeof(int);
    for (size_t i = 0; i < count; i++) {
      int descriptor;
      memcpy(&descriptor, CMSG_DATA(part) + i * sizeof descriptor, sizeof descriptor);
      if (channel->count < MOST_REGIONS) {
        channel->descriptors[channel->count++] = descriptor;
      } else {
        close(descriptor);
        is_well = false;
      }
    }
  }
  return is_well;
}

/* Takes at most `want` octets, so that no octet of the next message is among them, nor a descriptor of it. */
static enum received take(struct channel *channel, size_t want, const char **why) {
  union {
    struct cmsghdr head;
    char room[CMSG_SPACE(sizeof(int) * MOST_REGIONS)];
  } control;
  struct iovec octets = {.iov_base = channel->octets + channel->have, .iov_len = want};
  struct msghdr head = {.msg_iov = &octets, .msg_iovlen = 1, .msg_control = &control, .msg_controllen = sizeof control};
  ssize_t got = recvmsg(channel->socket, &head, MSG_DONTWAIT | MSG_CMSG_CLOEXEC);
  if (got < 0) return errno == EAGAIN || errno == EWOULDBLOCK || errno == EINTR ? WAITS : ENDED;
  if (!keep_descriptors(channel, &head)) {
    *why = "a message has more descriptors than eight";
    return BROKEN;
  }
  if (got == 0) return ENDED;
  channel->have += (size_t)got;
  return WHOLE;
}

/* Whether the header is one, and which form its message has. */
static bool has_form(const struct channel *channel, struct form *form, const char **why) {
  uint32_t command = number32(channel->octets);
  if (command >= sizeof forms / sizeof *forms || command == REPLY) {
    *why = "a message has a command that QEMU does not send";
    return false;
  }
  *form = forms[command];
  if (number64(channel->octets + 8) != form->length) {
    *why = "a message has another size than its command has";
    return false;
  }
  return true;
}

/* What the octets of a whole message say. */
static void read_data(const struct channel *channel, struct message *message) {
  const uint8_t *data = channel->octets + HEADER;
  switch (message->command) {
    case SYNC_MEMORY:
      for (size_t i = 0; i < MOST_REGIONS; i++) {
        message->regions[i].address = number64(data + 8 * i);
        message->regions[i].size = number64(data + 8 * (MOST_REGIONS + i));
        message->regions[i].offset = (int64_t)number64(data + 8 * (2 * MOST_REGIONS + i));
      }
      break;
    case CONFIG_WRITE:
    case CONFIG_READ:
      message->config = (struct config_access){number32(data), number32(data + 4), number32(data + 8)};
      break;
    case BAR_WRITE:
    case BAR_READ:
      message->bar = (struct bar_access){number64(data), number64(data + 8), number32(data + 16), data[20] != 0};
      break;
    case SET_INTERRUPT:
    case DEVICE_RESET:
    case REPLY: break;
  }
}

enum received channel_receive(struct channel *channel, struct message *message, const char **why) {
  struct form form = {0};
  for (;;) {
    size_t whole = HEADER;
    if (channel->have >= HEADER) {
      if (!has_form(channel, &form, why)) return BROKEN;
      whole = HEADER + form.length;
    }
    if (channel->have >= HEADER && channel->have == whole) break;
    enum received took = take(channel, whole - channel->have, why);
    if (took != WHOLE) return took;
  }
  if (channel->count < form.least || channel->count > form.most) {
    *why = "a message has another number of descriptors than its command has";
    return BROKEN;
  }
  *message = (struct message){.command = (enum command)number32(channel->octets), .count = channel->count};
  memcpy(message->descriptors, channel->descriptors, sizeof message->descriptors);
  read_data(channel, message);
  channel->have = channel->count = 0;
  return WHOLE;
}

bool channel_reply(struct channel *channel, uint64_t value) {
  uint8_t octets[HEADER + 8] = {0};
  const uint32_t command = REPLY;
  const uint64_t size = 8;
  memcpy(octets, &command, sizeof command);
  memcpy(octets + 8, &size, sizeof size);
  memcpy(octets + HEADER, &value, sizeof value);
  return send(channel->socket, octets, sizeof octets, MSG_DONTWAIT | MSG_NOSIGNAL) == (ssize_t)sizeof octets;
}
