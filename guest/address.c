#include "address.h"

#include <string.h>

bool address_make(struct sockaddr_un *address, const char *path, size_t length) {
  *address = (struct sockaddr_un){.sun_family = AF_UNIX};
  if (length == 0 || length >= sizeof address->sun_path) return false;
  memcpy(address->sun_path, path, length);
  return true;
}

const struct sockaddr *address_of(const struct sockaddr_un *address) {
  return (const struct sockaddr *)address;
}
