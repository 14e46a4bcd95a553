/* Input of the system: how it is looked at and taken. */
#define _GNU_SOURCE
#include "input.h"
#include "calls.h"
#include "descriptors.h"
#include "handlers.h"
#include "notes.h"
#include "refusal.h"
#include "session.h"
#include "threads.h"

#include <errno.h>
#include <fcntl.h>
#include <string.h>
#include <sys/ioctl.h>
#include <sys/signalfd.h>
#include <sys/socket.h>
#include <sys/syscall.h>
#include <unistd.h>

static int look_pipe[2] = {-1, -1}; /* a pipe into which the bytes of other pipes are copied to look at them */

/* ---- system calls without a wait */

long begin_nonblocking(int system) {
    long flags = syscall(SYS_fcntl, system, F_GETFL);
    if (flags >= 0 && !(flags & O_NONBLOCK))
        syscall(SYS_fcntl, system, F_SETFL, flags | O_NONBLOCK);
    return flags;
}

void end_nonblocking(int system, long flags) {
    int saved = errno;
    if (flags >= 0 && !(flags & O_NONBLOCK))
        syscall(SYS_fcntl, system, F_SETFL, flags);
    errno = saved;
}

ssize_t read_without_wait(int system, void *bytes, size_t size) {
    long flags = begin_nonblocking(system);
    ssize_t length = syscall(SYS_read, system, bytes, size);
    end_nonblocking(system, flags);
    return length;
}

ssize_t write_without_wait(int system, const void *bytes, size_t size) {
    long flags = begin_nonblocking(system);
    ssize_t length = syscall(SYS_write, system, bytes, size);
    end_nonblocking(system, flags);
    return length;
}

static ssize_t receive(int system, void *bytes, size_t size, int flags) {
    return syscall(SYS_recvfrom, system, bytes, size, flags | MSG_DONTWAIT, NULL, NULL);
}

/* ---- looking */

/* Keeps of bytes that were looked at those behind the unread ones. */
static ssize_t leave_unread(const struct descriptor *descriptor, const unsigned char *all, ssize_t length,
                            unsigned char *bytes) {
    if (length < 0 || (length == 0 && descriptor->unread == 0))
        return length;
    if (length <= descriptor->unread) {
        errno = EAGAIN;
        return -1;
    }
    length -= descriptor->unread;
    memcpy(bytes, all + descriptor->unread, length);
    return length;
}

static ssize_t look_at_socket(const struct descriptor *descriptor, unsigned char *bytes, size_t size) {
    unsigned char all[2 * PART_BYTES];
    ssize_t length = receive(descriptor->system, all, descriptor->unread + size, MSG_PEEK);
    return leave_unread(descriptor, all, length, bytes);
}

static ssize_t look_at_datagram(const struct descriptor *descriptor, unsigned char *bytes) {
    if (descriptor->unread) {
        errno = EAGAIN;
        return -1;
    }
    ssize_t length = receive(descriptor->system, bytes, PART_BYTES, MSG_PEEK | MSG_TRUNC);
    if (length > PART_BYTES)
        refuse("a datagram of %zd bytes comes to descriptor %d, more than %d", length, descriptor->system, PART_BYTES);
    int type = SOCK_DGRAM;
    socklen_t type_size = sizeof type;
    syscall(SYS_getsockopt, descriptor->system, SOL_SOCKET, SO_TYPE, &type, &type_size);
    if (length == 0 && type == SOCK_DGRAM)
        refuse("a datagram without bytes comes to descriptor %d", descriptor->system);
    return length;
}

static ssize_t look_at_pipe(const struct descriptor *descriptor, unsigned char *bytes, size_t size) {
    unsigned char all[2 * PART_BYTES];
    if (look_pipe[0] < 0) {
        int ends[2];
        if (pipe2(ends, O_CLOEXEC | O_NONBLOCK) != 0)
            fault("a pipe of the library: %s", strerror(errno));
        look_pipe[0] = session_private_file(ends[0]);
        look_pipe[1] = session_private_file(ends[1]);
    }
    ssize_t length = tee(descriptor->system, look_pipe[1], descriptor->unread + size, SPLICE_F_NONBLOCK);
    if (length > 0 && syscall(SYS_read, look_pipe[0], all, length) != length)
        fault("the bytes of a pipe cannot be read");
    return leave_unread(descriptor, all, length, bytes);
}

static ssize_t look_at_file(const struct descriptor *descriptor, unsigned char *bytes, size_t size) {
    off_t place = descriptor->place >= 0 ? descriptor->place : syscall(SYS_lseek, descriptor->system, 0L, SEEK_CUR);
    if (place < 0)
        return -1;
    return pread(descriptor->system, bytes, size, place + descriptor->unread);
}

static ssize_t read_signal(const struct descriptor *descriptor, unsigned char *bytes) {
    struct signalfd_siginfo info;
    if (syscall(SYS_read, descriptor->system, &info, sizeof info) != sizeof info)
        return -1;
    bytes[0] = info.ssi_signo;
    return 1;
}

ssize_t input_look(int number, unsigned char *bytes, size_t size) {
    const struct descriptor *descriptor = &descriptors[number];
    switch (descriptor->kind) {
    case SOCKET:
    case LISTENER: /* which answers an error */
        return look_at_socket(descriptor, bytes, size);
    case DATAGRAMS:
        return look_at_datagram(descriptor, bytes);
    case PIPE:
        return look_at_pipe(descriptor, bytes, size);
    case REGULAR:
        return look_at_file(descriptor, bytes, size);
    case SIGNALS:
        return read_signal(descriptor, bytes);
    default:
        return read_without_wait(descriptor->system, bytes, size);
    }
}

size_t input_first_look(int number) {
    const struct descriptor *descriptor = &descriptors[number];
    if (descriptor->kind != TERMINAL && descriptor->kind != REGULAR)
        return PART_BYTES;
    return descriptor->asked ? descriptor->asked : 1;
}

/* ---- taking */

/* Takes a datagram, and keeps from where it came. */
static ssize_t take_datagram(struct descriptor *descriptor, unsigned char *bytes, size_t length) {
    socklen_t size = sizeof descriptor->peer;
    ssize_t taken = syscall(SYS_recvfrom, descriptor->system, bytes, length, MSG_DONTWAIT, descriptor->peer, &size);
    descriptor->peer_size = taken > 0 ? size : 0;
    return taken;
}

static ssize_t take_bytes(struct descriptor *descriptor, unsigned char *bytes, size_t length) {
    switch (descriptor->kind) {
    case SOCKET:
        return receive(descriptor->system, bytes, length, 0);
    case DATAGRAMS:
        return take_datagram(descriptor, bytes, length);
    case PIPE:
        return read_without_wait(descriptor->system, bytes, length);
    case REGULAR:
        if (descriptor->place >= 0)
            descriptor->place += length;
        else
            syscall(SYS_lseek, descriptor->system, (off_t)length, SEEK_CUR);
        return length;
    default:
        return length;
    }
}

void input_take(int number, const unsigned char *bytes, size_t length) {
    struct descriptor *descriptor = &descriptors[number];
    unsigned char taken[PART_BYTES];
    size_t done = 0;
    if (descriptor->is_outside || (session_is_again() && descriptor->system <= 2))
        return;
    int saved = errno;
    while (done < length) {
        ssize_t count = take_bytes(descriptor, taken + done, length - done);
        if (count <= 0)
            break;
        done += count;
    }
    errno = saved;
    bool is_looked_at = descriptor->kind == SOCKET || descriptor->kind == DATAGRAMS || descriptor->kind == PIPE;
    if (!session_is_again() && is_looked_at && (done < length || memcmp(taken, bytes, length) != 0))
        refuse("bytes of descriptor %d were read by another call or process too", descriptor->system);
    if (descriptor->kind == REGULAR)
        descriptor->place_of_unread += length;
}

/* ---- bytes that the program has read by other means */

static bool is_stale(const struct descriptor *descriptor) {
    int count = 0;
    if (descriptor->unread == 0 || descriptor->is_closed)
        return false;
    switch (descriptor->kind) {
    case SOCKET:
    case DATAGRAMS:
    case PIPE:
        return ioctl(descriptor->system, FIONREAD, &count) == 0 && count < descriptor->unread;
    case REGULAR:
        return syscall(SYS_lseek, descriptor->system, 0L, SEEK_CUR) != descriptor->place_of_unread;
    default:
        return false;
    }
}

void input_forget(int number, long count) {
    struct descriptor *descriptor = &descriptors[number];
    if (!session_is_again() && descriptor->unread_since > session.now)
        refuse("bytes of descriptor %d, for which a thread waits, are read by other means", descriptor->system);
    if (!handler_runs())
        script_add_comment(current_thread->body, "bytes that the program reads by other means:");
    call("read %d %ld", number, count);
    descriptor->unread -= count;
}

void input_follow(int number) {
    struct descriptor *descriptor = &descriptors[number];
    if (session_is_again()) {
        const struct note *note = note_take(number, descriptor->calls, "forgets");
        if (note)
            input_forget(number, note->number);
    } else if (is_stale(descriptor)) {
        input_leave(number);
    }
}

void input_leave(int number) {
    struct descriptor *descriptor = &descriptors[number];
    if (session_is_again() || descriptor->unread == 0)
        return;
    note_add(number, descriptor->calls, "forgets", descriptor->unread);
    input_forget(number, descriptor->unread);
}
