#include "session.h"

#include "say.h"

void session_turn(struct session *session) {
  session->has_more = device_turn(&session->device);
  interrupt_set(&session->interrupt,
                device_interrupts(&session->device) && !config_disables_interrupts(&session->config));
}

static uint64_t read_config(const struct session *session, const struct config_access *access) {
  if (!config_has(access->address, access->length)) return UINT64_MAX;
  return config_read(&session->config, access->address, access->length, device_interrupts(&session->device));
}

static uint64_t write_config(struct session *session, const struct config_access *access) {
  if (!config_has(access->address, access->length)) return UINT64_MAX;
  config_write(&session->config, access->address, access->length, access->value);
  device_set_master(&session->device, config_is_master(&session->config));
  session_turn(session);
  return 0;
}

static uint64_t write_bar(struct session *session, const struct bar_access *access) {
  bar_write(&session->bar, &session->config, &session->device, access);
  session_turn(session);
  return 0;
}

static uint64_t read_bar(struct session *session, const struct bar_access *access) {
  uint64_t value = bar_read(&session->bar, &session->config, &session->device, access);
  session_turn(session);
  return value;
}

static uint64_t reset(struct session *session) {
  config_reset(&session->config);
  session->bar.io_address = 0;
  device_reset(&session->device);
  session_turn(session);
  return 0;
}

/* Obeys a message that has an answer, and gives that. */
static uint64_t obey(struct session *session, const struct message *message) {
  switch (message->command) {
    case CONFIG_READ: return read_config(session, &message->config);
    case CONFIG_WRITE: return write_config(session, &message->config);
    case BAR_READ: return read_bar(session, &message->bar);
    case BAR_WRITE: return write_bar(session, &message->bar);
    case DEVICE_RESET: return reset(session);
    case SYNC_MEMORY:
    case SET_INTERRUPT:
    case REPLY: break;
  }
  return 0;
}

/* Obeys a message, and answers it where it has an answer; false where the answer is not taken. */
static bool serve(struct session *session, const struct message *message) {
  if (message->command == SYNC_MEMORY) return memory_set(&session->device.ram.memory, message), true;
  if (message->command == SET_INTERRUPT) {
    interrupt_set_files(&session->interrupt, message->descriptors[0], message->descriptors[1]);
    return true;
  }
  uint64_t answer = obey(session, message);
  session->is_asked = true;
  if (session->before_answer) session->before_answer(session->whose);
  return channel_reply(&session->channel, answer);
}

enum received session_serve(struct session *session) {
  struct message message;
  const char *why = "";
  for (unsigned i = 0; i < MOST_MESSAGES; i++) {
    enum received took = channel_receive(&session->channel, &message, &why);
    if (took == BROKEN) say("QEMU's socket is closed: %s", why);
    if (took != WHOLE) return took;
    session->device.counter = counter_now(&session->counter);
    bool is_taken = serve(session, &message);
    session->device.counter = 0; /* what happens from here on is no access */
    if (is_taken) continue;
    say("QEMU's socket is closed: it takes no answer");
    return BROKEN;
  }
  return WHOLE;
}
