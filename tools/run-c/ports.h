/* Message ports. */
#ifndef PORTS_H
#define PORTS_H

#include "threads.h"

/* Forgets all ports. */
void ports_begin(void);

/* Returns the machine's number of a port, or 0 for NULL. */
int port_number(pth_msgport_t port);

#endif
