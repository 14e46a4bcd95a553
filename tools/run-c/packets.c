/* Sending and receiving on sockets, with flags and addresses. A thread waits in spite of MSG_DONTWAIT, as with libpth.
 */
#define _GNU_SOURCE
#include "packets.h"
#include "descriptors.h"
#include "io.h"
#include "refusal.h"

#include <errno.h>
#include <string.h>
#include <sys/syscall.h>
#include <unistd.h>

static const struct {
    int flag;
    const char *name;
} flag_names[] = {
    {MSG_OOB, "MSG_OOB"},           {MSG_PEEK, "MSG_PEEK"},         {MSG_TRUNC, "MSG_TRUNC"},
    {MSG_WAITALL, "MSG_WAITALL"},   {MSG_ERRQUEUE, "MSG_ERRQUEUE"}, {MSG_FASTOPEN, "MSG_FASTOPEN"},
    {MSG_ZEROCOPY, "MSG_ZEROCOPY"}, {MSG_EOR, "MSG_EOR"},
};

void packets_check_flags(int flags, int allowed) {
    flags &= ~allowed;
    if (!flags)
        return;
    for (size_t i = 0; i < sizeof flag_names / sizeof *flag_names; i++)
        if (flags & flag_names[i].flag)
            refuse("the flag %s", flag_names[i].name);
    refuse("the flags %#x", flags);
}

/* ---- receiving */

/* Writes the address from which the bytes of the last read came. A stream over a network has none for its bytes. */
static void write_address(int file, struct sockaddr *address, socklen_t *size) {
    const struct descriptor *descriptor = &descriptors[descriptor_find(file)];
    int domain = 0;
    socklen_t domain_size = sizeof domain;
    size_t length = descriptor->kind == DATAGRAMS ? descriptor->peer_size : 0;
    syscall(SYS_getsockopt, file, SOL_SOCKET, SO_DOMAIN, &domain, &domain_size);
    if (descriptor->kind != DATAGRAMS && domain == AF_UNIX)
        refuse("the address from which the bytes of a stream in the Unix domain come");
    memcpy(address, descriptor->peer, length < *size ? length : *size);
    *size = length;
}

ssize_t packets_receive(int file, void *bytes, size_t size, int flags, struct sockaddr *address, socklen_t *length,
                        pth_event_t ring) {
    packets_check_flags(flags, MSG_NOSIGNAL | MSG_DONTWAIT | MSG_CMSG_CLOEXEC);
    if (size == 0)
        return 0;
    ssize_t received = io_read(file, &(struct iovec){bytes, size}, 1, ring);
    if (received >= 0 && address && length)
        write_address(file, address, length);
    return received;
}

ssize_t pth_recv(int file, void *bytes, size_t size, int flags) {
    CALL_ENTER();
    return packets_receive(file, bytes, size, flags, NULL, NULL, NULL);
}

ssize_t pth_recv_ev(int file, void *bytes, size_t size, int flags, pth_event_t ring) {
    CALL_ENTER();
    return packets_receive(file, bytes, size, flags, NULL, NULL, ring);
}

ssize_t pth_recvfrom(int file, void *bytes, size_t size, int flags, struct sockaddr *address, socklen_t *length) {
    CALL_ENTER();
    return packets_receive(file, bytes, size, flags, address, length, NULL);
}

ssize_t pth_recvfrom_ev(int file, void *bytes, size_t size, int flags, struct sockaddr *address, socklen_t *length,
                        pth_event_t ring) {
    CALL_ENTER();
    return packets_receive(file, bytes, size, flags, address, length, ring);
}

/* ---- sending */

static ssize_t send_bytes(int file, const void *bytes, size_t size, struct destination destination, pth_event_t ring) {
    packets_check_flags(destination.flags, MSG_NOSIGNAL | MSG_DONTWAIT | MSG_MORE | MSG_CONFIRM | MSG_DONTROUTE);
    if (size == 0)
        return 0;
    return io_write(file, &(struct iovec){(void *)bytes, size}, 1, ring, &destination);
}

ssize_t pth_send(int file, const void *bytes, size_t size, int flags) {
    CALL_ENTER();
    return send_bytes(file, bytes, size, (struct destination){flags, NULL, 0}, NULL);
}

ssize_t pth_send_ev(int file, const void *bytes, size_t size, int flags, pth_event_t ring) {
    CALL_ENTER();
    return send_bytes(file, bytes, size, (struct destination){flags, NULL, 0}, ring);
}

ssize_t pth_sendto(int file, const void *bytes, size_t size, int flags, const struct sockaddr *address,
                   socklen_t length) {
    CALL_ENTER();
    return send_bytes(file, bytes, size, (struct destination){flags, address, length}, NULL);
}

ssize_t pth_sendto_ev(int file, const void *bytes, size_t size, int flags, const struct sockaddr *address,
                      socklen_t length, pth_event_t ring) {
    CALL_ENTER();
    return send_bytes(file, bytes, size, (struct destination){flags, address, length}, ring);
}
