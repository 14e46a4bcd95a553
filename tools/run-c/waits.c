/* Waiting for descriptors by poll and select of the C library. Another thread does not run meanwhile, and what they
   answer is not in the recording. */
#define _GNU_SOURCE
#include "calls.h"
#include "descriptors.h"
#include "plain.h"
#include "refusal.h"
#include "session.h"

#include <poll.h>
#include <sys/select.h>
#include <sys/syscall.h>
#include <unistd.h>

enum { SIGSET_BYTES = 8 }; /* of the system's set of signals */

/* Refuses the run if what the system says of a descriptor is not what the program would be told without the library.
 */
static void check(int file, const char *name, const void *address) {
    int number = descriptor_find_plain(file);
    if (number < 0)
        return;
    call_check(name, address);
    if (session_is_again())
        refuse("%s of descriptor %d is not in the recording; pth_%s is", name, file, name);
    if (descriptors[number].kind == TERMINAL && descriptors[number].unread > 0)
        refuse("%s of descriptor %d, of which a call of Pth has taken a byte to look at it", name, file);
}

static void check_polls(const struct pollfd *polls, nfds_t count, const char *name, const void *address) {
    for (nfds_t i = 0; i < count; i++)
        check(polls[i].fd, name, address);
}

static void check_sets(int limit, fd_set *const sets[3], const char *name, const void *address) {
    for (int file = 0; file < limit && file < FD_SETSIZE; file++)
        for (int i = 0; i < 3; i++)
            if (sets[i] && FD_ISSET(file, sets[i])) {
                check(file, name, address);
                break;
            }
}

EXPORTED int poll(struct pollfd *polls, nfds_t count, int milliseconds) {
    check_polls(polls, count, __func__, __builtin_return_address(0));
    return syscall(SYS_poll, polls, count, milliseconds);
}

EXPORTED int ppoll(struct pollfd *polls, nfds_t count, const struct timespec *length, const sigset_t *mask) {
    struct timespec left;
    check_polls(polls, count, __func__, __builtin_return_address(0));
    if (length)
        left = *length;
    return syscall(SYS_ppoll, polls, count, length ? &left : NULL, mask, (long)SIGSET_BYTES);
}

EXPORTED int select(int limit, fd_set *restrict reads, fd_set *restrict writes, fd_set *restrict exceptions,
                    struct timeval *restrict length) {
    check_sets(limit, (fd_set *[]){reads, writes, exceptions}, __func__, __builtin_return_address(0));
    return syscall(SYS_select, limit, reads, writes, exceptions, length);
}

EXPORTED int pselect(int limit, fd_set *restrict reads, fd_set *restrict writes, fd_set *restrict exceptions,
                     const struct timespec *restrict length, const sigset_t *restrict mask) {
    struct timespec left;
    struct {
        const sigset_t *mask;
        size_t size;
    } argument = {mask, SIGSET_BYTES};
    check_sets(limit, (fd_set *[]){reads, writes, exceptions}, __func__, __builtin_return_address(0));
    if (length)
        left = *length;
    return syscall(SYS_pselect6, limit, reads, writes, exceptions, length ? &left : NULL, &argument);
}
