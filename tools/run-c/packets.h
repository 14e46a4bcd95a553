/* Sending and receiving on sockets. */
#ifndef PACKETS_H
#define PACKETS_H

#include "threads.h"

#include <sys/socket.h>

/* Receives as pth_recvfrom_ev does. The address and the ring may be NULL. */
ssize_t packets_receive(int file, void *bytes, size_t size, int flags, struct sockaddr *address, socklen_t *length,
                        pth_event_t ring);

/* Refuses the run if flags of recv(2) or send(2) are not allowed. */
void packets_check_flags(int flags, int allowed);

#endif
