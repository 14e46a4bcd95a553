/* Input of the system. The library looks at bytes when the machine is to learn of them, and takes them of the system
   once a `read` of the machine has answered them. So what the program has not read is still there for other calls and
   other processes, and a file has the offset that it would have. The bytes of a terminal are taken at once, as it has
   no other way. */
#ifndef INPUT_H
#define INPUT_H

#include <stdbool.h>
#include <stddef.h>
#include <sys/types.h>

/* Looks at the bytes of a descriptor behind those that are unread, without a wait. Returns their count, 0 at the end,
   or -1 with errno: EAGAIN if there are none. Of a socket of datagrams, looks at the next whole datagram. */
ssize_t input_look(int number, unsigned char *bytes, size_t size);

/* Returns how many bytes are to be looked at for a thread that waits, or that asks only whether there are any. */
size_t input_first_look(int number);

/* Takes the bytes of the system that a `read` has answered. In a run from a recording, takes as many if both sides of
   the descriptor belong to the program. */
void input_take(int number, const unsigned char *bytes, size_t length);

/* Lets the machine forget the unread bytes of a descriptor, by a `read` of the current thread, if the program has read
   them by other means. */
void input_follow(int number);

/* The same, if the program is about to read them by other means. */
void input_leave(int number);

/* Lets the machine forget so many unread bytes. */
void input_forget(int number, long count);

/* Sets O_NONBLOCK for the time of a system call, as libpth does. Returns the flags from before. */
long begin_nonblocking(int system);
void end_nonblocking(int system, long flags);

/* Makes a system call without a wait, even if O_NONBLOCK is not set. */
ssize_t read_without_wait(int system, void *bytes, size_t size);
ssize_t write_without_wait(int system, const void *bytes, size_t size);

#endif
