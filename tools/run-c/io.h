/* Reading and writing. */
#ifndef IO_H
#define IO_H

#include "output.h"
#include "threads.h"

#include <sys/uio.h>

/* Reads into the parts, as pth_readv_ev does. The ring may be NULL. */
ssize_t io_read(int file, const struct iovec *parts, int count, pth_event_t ring);

/* Writes the parts, as pth_writev_ev does. The ring and the destination may be NULL. */
ssize_t io_write(int file, const struct iovec *parts, int count, pth_event_t ring,
                 const struct destination *destination);

/* Returns how many bytes the parts have. */
size_t io_size(const struct iovec *parts, int count);

/* Returns what a write of the program that the machine does not know returns: the count that was to be written, unless
   the system took another count, or refused with errno for -1. */
ssize_t io_plain_result(int number, ssize_t count, ssize_t taken, int flags);

#endif
