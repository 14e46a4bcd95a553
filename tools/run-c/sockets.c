/* Connections: accept and connect. */
#define _GNU_SOURCE
#include "sockets.h"
#include "arrivals.h"
#include "descriptors.h"
#include "events.h"
#include "input.h"
#include "notes.h"
#include "refusal.h"
#include "session.h"

#include <errno.h>
#include <fcntl.h>
#include <string.h>
#include <sys/syscall.h>
#include <unistd.h>

/* ---- accept */

/* An address of a socket. */
struct name {
    struct sockaddr_storage address;
    socklen_t size;
};

/* Accepts in the system the connection that the machine has accepted, so that its number is the one that the program
   would get without the library. Returns -1 with errno if the system has no descriptor for it. */
static int accept_system(int file, struct name *peer, int flags) {
    long mode = begin_nonblocking(file);
    peer->size = sizeof peer->address;
    int system = syscall(SYS_accept4, file, &peer->address, &peer->size, flags);
    end_nonblocking(file, mode);
    if (system < 0 && errno != EMFILE && errno != ENFILE && errno != ENOMEM)
        refuse("the connection was gone before it was accepted: %s", strerror(errno));
    return system;
}

/* Makes a socket that is not connected, in place of a connection of a recording, with the same number. */
static int make_placeholder(const struct note *note) {
    struct sockaddr address = {.sa_family = AF_UNIX};
    if (note->length >= sizeof address.sa_family)
        memcpy(&address, note->address, sizeof address.sa_family);
    int system = syscall(SYS_socket, address.sa_family, SOCK_STREAM, 0);
    if (system < 0)
        fault("a socket in place of a connection: %s", strerror(errno));
    if (system == note->number || syscall(SYS_fcntl, (int)note->number, F_GETFD) >= 0)
        return system;
    int moved = syscall(SYS_dup3, system, (int)note->number, 0);
    syscall(SYS_close, system);
    return moved;
}

/* Opens in the system the connection that the machine has accepted at a listener. */
static int open_connection(int number, int connection, int file, struct name *peer, int flags) {
    const struct note *note = note_take(connection, 0, "accepts");
    int system = -1;
    if (note) {
        system = make_placeholder(note);
        peer->size = note->length;
        memcpy(&peer->address, note->address, note->length);
    } else if (!session_is_again()) {
        system = accept_system(file, peer, flags);
    }
    int error = descriptor_note_error(number, "fails", system < 0 ? errno : 0);
    if (system < 0) {
        descriptors[connection].is_known = descriptors[connection].is_closed = true;
        errno = error ? error : EIO;
        return -1;
    }
    if (!note)
        note_add_address(connection, 0, "accepts", system, &peer->address, peer->size);
    descriptor_assign(connection, system);
    return system;
}

int sockets_accept(int file, struct sockaddr *address, socklen_t *size, int flags, pth_event_t ring) {
    struct name peer;
    int number = descriptor_begin_call(file);
    if (number < 0)
        return -1;
    if (descriptors[number].is_nonblocking)
        arrivals_let_time_pass(number, true, false);
    int error = descriptor_note_error(number, "fails_at_once", arrivals_bring_connection(number));
    if (error) {
        errno = error;
        return -1;
    }
    descriptor_need(1ULL << number, 0);
    events_need(ring);
    long connection = ring ? call("accept_ev %d %d", number, ring->number) : call("accept %d", number);
    if (call_error)
        descriptors[number].missed_at = session.now;
    if (call_error)
        return -1;
    if (connection < 0 || connection >= DESCRIPTORS)
        fault("descriptor %ld is accepted", connection);
    descriptors[number].unread--;
    int system = open_connection(number, connection, file, &peer, flags);
    if (system >= 0 && address && size) {
        memcpy(address, &peer.address, peer.size < *size ? peer.size : *size);
        *size = peer.size;
    }
    return system;
}

/* As libpth does, the connection gets the mode of the listener. */
static int accept_with_mode(int file, struct sockaddr *address, socklen_t *size, pth_event_t ring) {
    int number = descriptor_of(file);
    int system = sockets_accept(file, address, size, 0, ring);
    if (system >= 0 && descriptors[number].is_nonblocking)
        syscall(SYS_fcntl, system, F_SETFL, syscall(SYS_fcntl, system, F_GETFL) | O_NONBLOCK);
    return system;
}

int pth_accept(int file, struct sockaddr *address, socklen_t *size) {
    CALL_ENTER();
    return accept_with_mode(file, address, size, NULL);
}

int pth_accept_ev(int file, struct sockaddr *address, socklen_t *size, pth_event_t ring) {
    CALL_ENTER();
    return accept_with_mode(file, address, size, ring);
}

/* ---- connect */

static int begin_connect(int file, const struct sockaddr *address, socklen_t size, bool is_plain) {
    long mode = is_plain ? -1 : begin_nonblocking(file);
    int result = syscall(SYS_connect, file, address, (long)size);
    int error = result < 0 ? errno : 0;
    if (!is_plain)
        end_nonblocking(file, mode);
    return error;
}

/* Begins to connect in the system. How that went is added, or is still to come. Returns 0, or the errno with which the
   system refuses the call; the machine is not asked then. */
static int connect_system(int number, int file, const struct sockaddr *address, socklen_t size, bool is_plain) {
    struct descriptor *descriptor = &descriptors[number];
    int error = begin_connect(file, address, size, is_plain);
    bool is_first = !descriptor->has_begun_connect, is_refused = error == ECONNREFUSED;
    if (error != 0 && error != EINPROGRESS && !(is_first && is_refused && !descriptor->is_nonblocking))
        return error;
    if (!is_first && (error == EINPROGRESS || descriptor->was_refused || descriptor->has_failed))
        refuse("descriptor %d is connected a second time", file);
    descriptor->has_begun_connect = true;
    descriptor->is_connecting = error == EINPROGRESS;
    descriptor->was_refused = is_refused;
    if (is_first && error != EINPROGRESS)
        script_add_arrival(session.now, number, is_refused ? "refuse" : "up", true);
    return 0;
}

/* Returns what the system answers where the machine gives an error. */
static int connect_result(int number) {
    struct descriptor *descriptor = &descriptors[number];
    int error = call_error;
    if (error == EAGAIN)
        error = EINPROGRESS;
    if (error == EIO) {
        int noted = descriptor_note_error(number, "fails", descriptor->error);
        error = noted ? noted : EIO;
    }
    if (error != EINPROGRESS && error != EINTR)
        descriptor->error = 0;
    if (error)
        errno = error;
    return error ? -1 : 0;
}

int sockets_connect(int file, const struct sockaddr *address, socklen_t size, bool is_plain, pth_event_t ring) {
    int number = descriptor_begin_call(file), error = 0;
    if (number < 0)
        return -1;
    if (session_is_again())
        descriptors[number].is_outside = true;
    else
        error = connect_system(number, file, address, size, is_plain);
    error = descriptor_note_error(number, "fails_at_once", error);
    if (error) {
        errno = error;
        return -1;
    }
    descriptor_need(0, 1ULL << number);
    events_need(ring);
    if (ring)
        call("connect_ev %d %d", number, ring->number);
    else
        call("connect %d", number);
    return connect_result(number);
}

int pth_connect(int file, const struct sockaddr *address, socklen_t size) {
    CALL_ENTER();
    return sockets_connect(file, address, size, false, NULL);
}

int pth_connect_ev(int file, const struct sockaddr *address, socklen_t size, pth_event_t ring) {
    CALL_ENTER();
    return sockets_connect(file, address, size, false, ring);
}
