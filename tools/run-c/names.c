/* Addresses, options and the shutdown of sockets, by functions of the C library.

   A run from a recording takes addresses from there, since its sockets have others or none. It makes the calls on
   sockets that are the program's own, such as listeners, which may fail where they have not failed before: then they
   are answered as before. */
#define _GNU_SOURCE
#include "names.h"
#include "calls.h"
#include "descriptors.h"
#include "notes.h"
#include "output.h"
#include "plain.h"
#include "session.h"

#include <errno.h>
#include <netinet/in.h>
#include <string.h>
#include <sys/syscall.h>
#include <unistd.h>

enum { TRANSLATIONS = 64 };

static struct {
    sa_family_t family;
    in_port_t recorded, real;
} translations[TRANSLATIONS]; /* ports that the system has chosen, and that are others than in the recording */
static int translation_count; /* how many there are */

/* Counts a call on a socket, or on one of all those that the machine does not know. Returns the count. */
static int count_call(int number) {
    static int count, session_of_count; /* of the sockets that the machine does not know, and of which session */
    if (number >= 0)
        return ++descriptors[number].calls;
    if (session_of_count != session.number)
        count = 0;
    session_of_count = session.number;
    return ++count;
}

/* ---- addresses */

static in_port_t *port_of(struct sockaddr_storage *address) {
    bool has_port = address->ss_family == AF_INET || address->ss_family == AF_INET6;
    return has_port ? &((struct sockaddr_in *)address)->sin_port : NULL; /* which is at the same place in IPv6 */
}

static void add_translation(struct sockaddr_storage *recorded, struct sockaddr_storage *real) {
    in_port_t *one = port_of(recorded), *other = port_of(real);
    if (!one || !other || recorded->ss_family != real->ss_family || translation_count == TRANSLATIONS)
        return;
    translations[translation_count].family = real->ss_family;
    translations[translation_count].recorded = *one;
    translations[translation_count++].real = *other;
}

static int answer_address(int file, struct sockaddr *address, socklen_t *size, long call_of_system, const char *word) {
    struct sockaddr_storage found, recorded;
    socklen_t length = sizeof found;
    if (!descriptors_are_in_use())
        return syscall(call_of_system, file, address, size);
    int number = descriptor_find(file), count = count_call(number);
    int result = syscall(call_of_system, file, &found, &length);
    const struct note *note = note_take(number, count, word);
    if (!note && result < 0)
        return -1;
    if (note) {
        memcpy(&recorded, note->address, length = note->length);
        if (result == 0)
            add_translation(&recorded, &found);
        found = recorded;
    } else if (!session_is_again()) {
        note_add_address(number, count, word, 0, &found, length);
    }
    memcpy(address, &found, length < *size ? length : *size);
    *size = length;
    return 0;
}

EXPORTED int getsockname(int file, struct sockaddr *restrict address, socklen_t *restrict size) {
    return answer_address(file, address, size, SYS_getsockname, "name");
}

EXPORTED int getpeername(int file, struct sockaddr *restrict address, socklen_t *restrict size) {
    return answer_address(file, address, size, SYS_getpeername, "peer");
}

/* ---- binding and connecting sockets that the machine does not know */

/* Returns what a call on such a socket has answered in the recording, for the result that it has now. */
static int answer_as_recorded(int result, const char *word) {
    int error = result < 0 ? errno : 0, count = count_call(-1);
    if (session_is_again()) {
        const struct note *note = note_take(-1, count, word);
        error = note ? (int)note->number : 0;
    } else if (error) {
        note_add(-1, count, word, error);
    }
    errno = error ? error : errno;
    return error ? -1 : 0;
}

EXPORTED int bind(int file, const struct sockaddr *address, socklen_t size) {
    int result = syscall(SYS_bind, file, address, size);
    return descriptors_are_in_use() ? answer_as_recorded(result, "binds") : result;
}

EXPORTED int listen(int file, int backlog) {
    int result = syscall(SYS_listen, file, backlog);
    return descriptors_are_in_use() ? answer_as_recorded(result, "listens") : result;
}

/* Whether an address may be that of a socket of the program. */
static bool is_local(const struct sockaddr_storage *address) {
    const struct sockaddr_in *four = (const struct sockaddr_in *)address;
    const struct sockaddr_in6 *six = (const struct sockaddr_in6 *)address;
    if (address->ss_family == AF_INET)
        return ntohl(four->sin_addr.s_addr) >> 24 == 127 || four->sin_addr.s_addr == INADDR_ANY;
    if (address->ss_family == AF_INET6)
        return IN6_IS_ADDR_LOOPBACK(&six->sin6_addr) || IN6_IS_ADDR_UNSPECIFIED(&six->sin6_addr);
    return true;
}

/* Connects in a run from a recording: to the port that the system has chosen now, and not to what is outside. */
static int connect_again(int file, const struct sockaddr *address, socklen_t size) {
    struct sockaddr_storage copy = {0};
    memcpy(&copy, address, size < sizeof copy ? size : sizeof copy);
    in_port_t *port = port_of(&copy);
    if (!is_local(&copy))
        return 0;
    for (int i = 0; port && i < translation_count; i++)
        if (translations[i].family == copy.ss_family && translations[i].recorded == *port) {
            *port = translations[i].real;
            break;
        }
    return syscall(SYS_connect, file, &copy, size);
}

int names_connect(int file, const struct sockaddr *address, socklen_t size) {
    if (!descriptors_are_in_use())
        return syscall(SYS_connect, file, address, size);
    int result = session_is_again() ? connect_again(file, address, size) : syscall(SYS_connect, file, address, size);
    return answer_as_recorded(result, "connects");
}

/* ---- options and shutdown */

/* How a connect went, which the library has asked the system for, is answered once. */
EXPORTED int getsockopt(int file, int level, int option, void *restrict value, socklen_t *restrict size) {
    int number = descriptor_find_plain(file), result = syscall(SYS_getsockopt, file, level, option, value, size);
    if (number < 0 || result < 0 || level != SOL_SOCKET || option != SO_ERROR || *size != sizeof(int))
        return result;
    int error = *(int *)value ? *(int *)value : descriptors[number].error;
    descriptors[number].error = 0;
    descriptors[number].calls++;
    *(int *)value = descriptor_note_error(number, "error", error);
    return 0;
}

EXPORTED int shutdown(int file, int how) {
    int number = descriptor_find_plain(file), result = 0;
    if (number < 0)
        return syscall(SYS_shutdown, file, how);
    struct descriptor *descriptor = &descriptors[number];
    descriptor->calls++;
    if (output_is_kept(number) && how != SHUT_RD)
        descriptor->shutdown = how; /* once the output is gone */
    else if (!descriptor->is_outside)
        result = syscall(SYS_shutdown, file, how);
    int error = descriptor_note_error(number, "fails", result < 0 ? errno : 0);
    errno = error ? error : errno;
    return error ? -1 : 0;
}
