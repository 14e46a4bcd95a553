/* Output: what the machine has written goes to the system, without a wait of the process. */
#ifndef OUTPUT_H
#define OUTPUT_H

#include <stdbool.h>
#include <stddef.h>
#include <sys/socket.h>
#include <sys/types.h>

/* How bytes are sent to a socket. */
struct destination {
    int flags;                      /* of send(2) */
    const struct sockaddr *address; /* to which a datagram goes, or NULL */
    socklen_t size;
};

/* Hands bytes that the machine has written to the system. What the system does not take at once is kept, and handed
   over later. Returns how many bytes that is, or -1 with errno if the system refuses them. The destination is NULL for
   a write. */
ssize_t output_put(int number, const char *bytes, size_t length, const struct destination *destination);

/* Whether the system takes more bytes of a descriptor now, and none are kept. */
bool output_has_room(int number);

/* Hands over what the system takes now of the kept bytes of all descriptors. */
void output_flush(void);

/* Whether bytes of a descriptor are kept. */
bool output_is_kept(int number);

/* Goes on with the kept bytes of a descriptor by another number of the system, since its own is about to be closed. */
void output_close(int number);

/* Hands over the kept bytes of a descriptor, or of all descriptors at the end of a session. The process waits here, as
   it would in a write(2). Bytes for a pipe of which this process has the other side are dropped at the end. */
void output_wait(int number);
void output_end(void);

#endif
