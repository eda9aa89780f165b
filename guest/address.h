/* The address of a socket that has a path. */
#ifndef GUEST_ADDRESS_H
#define GUEST_ADDRESS_H

#include <stdbool.h>
#include <stddef.h>
#include <sys/socket.h>
#include <sys/un.h>

/* Makes the address of the path that these octets are; false where it is empty, or too long for one. */
bool address_make(struct sockaddr_un *address, const char *path, size_t length);

/* The address as the calls of sockets take it. */
const struct sockaddr *address_of(const struct sockaddr_un *address);

#endif
