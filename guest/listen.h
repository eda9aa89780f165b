/* A socket at which a QEMU that somebody else starts is waited for. */
#ifndef GUEST_LISTEN_H
#define GUEST_LISTEN_H

#include <stdbool.h>

#include "message.h"

/* Makes the socket; false, and told, where it can't be made. */
bool listen_at(const char *path, int *listener);

/* Waits for the first QEMU. 0 where it came, or the number of the signal that ended the wait. */
int listen_wait(int listener, int signals, struct channel *channel);

/* Closes the socket, and takes its path away. */
void listen_end(const char *path, int listener);

#endif
