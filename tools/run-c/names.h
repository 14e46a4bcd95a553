/* Addresses of sockets. */
#ifndef NAMES_H
#define NAMES_H

#include <sys/socket.h>

/* Connects a socket that the machine does not know, as connect(2) does. */
int names_connect(int file, const struct sockaddr *address, socklen_t size);

#endif
