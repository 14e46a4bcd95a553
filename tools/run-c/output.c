/* Output: what the machine has written goes to the system, without a wait of the process. */
#define _GNU_SOURCE
#include "output.h"
#include "descriptors.h"
#include "input.h"
#include "session.h"

#include <errno.h>
#include <poll.h>
#include <string.h>
#include <sys/syscall.h>
#include <unistd.h>

/* Before each kept datagram stands this, and then the address. */
struct kept_datagram {
    size_t length;
    socklen_t size; /* of the address */
    int flags;
};

static const struct destination quiet = {.flags = MSG_NOSIGNAL}; /* of bytes that were kept */

static int poll_output(int system, int milliseconds) {
    struct pollfd poll = {system, POLLOUT, 0};
    return syscall(SYS_poll, &poll, 1L, milliseconds) > 0 ? poll.revents : 0;
}

/* ---- system calls */

static ssize_t send_now(int system, const char *bytes, size_t length, const struct destination *destination) {
    static const struct destination plain = {0};
    if (!destination)
        destination = &plain;
    return syscall(SYS_sendto, system, bytes, length, destination->flags | MSG_DONTWAIT, destination->address,
                   (long)destination->size);
}

static ssize_t write_to_file(struct descriptor *descriptor, const char *bytes, size_t length) {
    if (descriptor->place < 0)
        return syscall(SYS_write, descriptor->system, bytes, length);
    ssize_t written = pwrite(descriptor->system, bytes, length, descriptor->place);
    descriptor->place += written > 0 ? written : 0;
    return written;
}

/* Writes what the system takes now. Returns how many bytes that is, or -1 with errno. If no signal is to come, a pipe
   that nobody reads is not written to. */
static ssize_t write_now(struct descriptor *descriptor, const char *bytes, size_t length,
                         const struct destination *destination) {
    bool is_quiet = destination && destination->flags & MSG_NOSIGNAL;
    switch (descriptor->kind) {
    case SOCKET:
    case DATAGRAMS:
    case LISTENER:
        return send_now(descriptor->system, bytes, length, destination);
    case REGULAR:
        return write_to_file(descriptor, bytes, length);
    default:
        if (is_quiet && descriptor->kind == PIPE && poll_output(descriptor->system, 0) & POLLERR) {
            errno = EPIPE;
            return -1;
        }
        return write_without_wait(descriptor->system, bytes, length);
    }
}

static bool is_to_wait(int error) {
    return error == EAGAIN || error == EINTR || error == ENOBUFS;
}

/* ---- kept bytes */

static void drop_first(struct text *kept, size_t count) {
    memmove(kept->bytes, kept->bytes + count, kept->length - count);
    kept->length -= count;
}

static void keep_datagram(struct text *kept, const char *bytes, size_t length, const struct destination *destination) {
    struct kept_datagram head = {.length = length, .flags = MSG_NOSIGNAL};
    if (destination && destination->address)
        head.size = destination->size;
    text_add(kept, (char *)&head, sizeof head);
    if (head.size)
        text_add(kept, (char *)destination->address, head.size);
    text_add(kept, bytes, length);
}

/* Sends the first kept datagram. Returns how many kept bytes are done, 0 if the system takes it later, or -1. */
static ssize_t send_kept_datagram(const struct descriptor *descriptor) {
    struct kept_datagram head;
    struct sockaddr_storage address;
    const char *bytes = descriptor->output.bytes;
    memcpy(&head, bytes, sizeof head);
    memcpy(&address, bytes + sizeof head, head.size);
    struct destination destination = {head.flags, head.size ? (struct sockaddr *)&address : NULL, head.size};
    ssize_t sent = send_now(descriptor->system, bytes + sizeof head + head.size, head.length, &destination);
    return sent < 0 ? -1 : (ssize_t)(sizeof head + head.size + head.length);
}

/* What is done once the kept bytes of a descriptor are gone. */
static void finish(struct descriptor *descriptor) {
    if (descriptor->shutdown >= 0)
        syscall(SYS_shutdown, descriptor->system, descriptor->shutdown);
    descriptor->shutdown = -1;
    if (descriptor->is_closed) {
        syscall(SYS_close, descriptor->system);
        descriptor->system = -1;
    }
}

/* Hands over what the system takes now of the kept bytes of a descriptor. */
static void flush_one(struct descriptor *descriptor) {
    struct text *kept = &descriptor->output;
    int saved = errno;
    while (kept->length > 0) {
        ssize_t done = descriptor->kind == DATAGRAMS ? send_kept_datagram(descriptor)
                                                     : write_now(descriptor, kept->bytes, kept->length, &quiet);
        if (done < 0 && is_to_wait(errno))
            break;
        if (done < 0)
            descriptor->output_error = errno;
        drop_first(kept, done < 0 ? kept->length : (size_t)done);
    }
    if (kept->length == 0)
        finish(descriptor);
    errno = saved;
}

bool output_is_kept(int number) {
    return descriptors[number].output.length > 0;
}

bool output_has_room(int number) {
    return !output_is_kept(number) && poll_output(descriptors[number].system, 0);
}

void output_flush(void) {
    for (int number = 0; number < DESCRIPTORS; number++)
        if (output_is_kept(number))
            flush_one(&descriptors[number]);
}

/* ---- what the machine writes */

/* Writes until the system takes no more. Returns how many bytes are written, or -1 with errno if the system refuses
   the first. Sets `waits` if the rest is to be kept. */
static ssize_t write_on(struct descriptor *descriptor, const char *bytes, size_t length,
                        const struct destination *destination, bool *waits) {
    size_t done = 0;
    *waits = false;
    while (done < length) {
        ssize_t written = write_now(descriptor, bytes + done, length - done, destination);
        if (written > 0)
            done += written;
        *waits = written == 0 || (written < 0 && is_to_wait(errno));
        if (written <= 0)
            return *waits || done > 0 ? (ssize_t)done : -1;
    }
    return done;
}

ssize_t output_put(int number, const char *bytes, size_t length, const struct destination *destination) {
    struct descriptor *descriptor = &descriptors[number];
    bool waits = true;
    ssize_t written = 0;
    if (descriptor->is_outside)
        return length;
    if (descriptor->output_error && !output_is_kept(number)) {
        errno = descriptor->output_error;
        descriptor->output_error = 0;
        return -1;
    }
    if (session_is_again())
        destination = &quiet;
    if (!output_is_kept(number))
        written = write_on(descriptor, bytes, length, destination, &waits);
    if (!waits)
        return written;
    if (descriptor->kind == DATAGRAMS)
        keep_datagram(&descriptor->output, bytes, length, destination);
    else
        text_add(&descriptor->output, bytes + written, length - written);
    return length;
}

/* ---- waits of the process */

void output_close(int number) {
    struct descriptor *descriptor = &descriptors[number];
    if (output_is_kept(number))
        descriptor->system = session_private_file(syscall(SYS_dup, descriptor->system));
    else
        descriptor->system = -1;
}

void output_wait(int number) {
    while (output_is_kept(number)) {
        poll_output(descriptors[number].system, -1);
        output_flush();
    }
}

/* Whether this process has the other side of a pipe, and so does not read on at its end. */
static bool is_own_pipe(int number) {
    const struct descriptor *descriptor = &descriptors[number];
    for (int other = 0; other < DESCRIPTORS; other++)
        if (other != number && descriptors[other].is_known && !descriptors[other].is_closed &&
            descriptor->kind == PIPE && descriptors[other].inode == descriptor->inode &&
            descriptors[other].device == descriptor->device)
            return true;
    return false;
}

void output_end(void) {
    output_flush();
    for (int number = 0; number < DESCRIPTORS; number++) {
        if (!is_own_pipe(number))
            output_wait(number);
        text_clear(&descriptors[number].output);
    }
}
