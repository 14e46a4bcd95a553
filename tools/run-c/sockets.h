/* Connections. */
#ifndef SOCKETS_H
#define SOCKETS_H

#include "threads.h"

#include <sys/socket.h>

/* Accepts as pth_accept_ev does, with flags of accept4(2). The address and the ring may be NULL. */
int sockets_accept(int file, struct sockaddr *address, socklen_t *size, int flags, pth_event_t ring);

/* Connects as pth_connect_ev does. The ring may be NULL. A plain connect waits as connect(2). */
int sockets_connect(int file, const struct sockaddr *address, socklen_t size, bool is_plain, pth_event_t ring);

#endif
