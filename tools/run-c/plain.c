/* Reading, writing, closing and duplicating by functions of the C library. A read of the program goes by the machine,
   since its bytes have to be in the recording. A write does not. Both wait as ever: no other thread runs. */
#define _GNU_SOURCE
#include "plain.h"
#include "arrivals.h"
#include "descriptors.h"
#include "input.h"
#include "io.h"
#include "names.h"
#include "packets.h"
#include "refusal.h"
#include "session.h"
#include "sockets.h"

#include <errno.h>
#include <fcntl.h>
#include <stdarg.h>
#include <sys/syscall.h>
#include <unistd.h>

enum { PLAIN_FLAGS = MSG_NOSIGNAL | MSG_DONTWAIT | MSG_CMSG_CLOEXEC };

static bool is_known(int file) {
    return descriptor_find_plain(file) >= 0;
}

/* ---- closing and duplicating */

EXPORTED int close(int file) {
    if (session_has_private_file(file)) {
        errno = EBADF;
        return -1;
    }
    if (is_known(file)) {
        CALL_ENTER();
        descriptor_close(file);
    }
    return syscall(SYS_close, file);
}

/* Notes that the system has made a duplicate. */
static int end_duplicate(int made, int file, const char *name, const void *address) {
    int saved = errno;
    if (made >= 0 && made != file && (is_known(file) || is_known(made))) {
        call_enter(name, address);
        descriptor_duplicate(made, file);
    }
    errno = saved;
    return made;
}

EXPORTED int dup(int file) {
    return end_duplicate(syscall(SYS_dup, file), file, __func__, __builtin_return_address(0));
}

static int duplicate_to(int file, int number, int flags, const char *name, const void *address) {
    if (session_has_private_file(number) || file == number || syscall(SYS_fcntl, file, F_GETFD) < 0) {
        errno = EBADF;
        return -1;
    }
    if (is_known(number)) {
        call_enter(name, address);
        descriptor_close(number);
    }
    return end_duplicate(syscall(SYS_dup3, file, number, flags), file, name, address);
}

EXPORTED int dup2(int file, int number) {
    if (file == number)
        return syscall(SYS_dup2, file, number);
    return duplicate_to(file, number, 0, __func__, __builtin_return_address(0));
}

EXPORTED int dup3(int file, int number, int flags) {
    if (file == number)
        return syscall(SYS_dup3, file, number, flags);
    return duplicate_to(file, number, flags, __func__, __builtin_return_address(0));
}

static int control(int file, int command, long argument, const void *address) {
    long result = syscall(SYS_fcntl, file, command, argument);
    if (command != F_DUPFD && command != F_DUPFD_CLOEXEC)
        return result;
    return end_duplicate(result, file, "fcntl", address);
}

EXPORTED int fcntl(int file, int command, ...) {
    va_list list;
    va_start(list, command);
    long argument = va_arg(list, long);
    va_end(list);
    return control(file, command, argument, __builtin_return_address(0));
}

EXPORTED int fcntl64(int file, int command, ...) {
    va_list list;
    va_start(list, command);
    long argument = va_arg(list, long);
    va_end(list);
    return control(file, command, argument, __builtin_return_address(0));
}

/* ---- reading */

static ssize_t read_known(int file, const struct iovec *parts, int count) {
    arrivals_wait_plainly(descriptor_find(file));
    return io_read(file, parts, count, NULL);
}

EXPORTED ssize_t read(int file, void *bytes, size_t size) {
    if (!is_known(file))
        return syscall(SYS_read, file, bytes, size);
    CALL_ENTER();
    return read_known(file, &(struct iovec){bytes, size}, 1);
}

EXPORTED ssize_t readv(int file, const struct iovec *parts, int count) {
    if (!is_known(file))
        return syscall(SYS_readv, file, parts, count);
    CALL_ENTER();
    return read_known(file, parts, count);
}

static ssize_t receive_known(int file, void *bytes, size_t size, int flags, struct sockaddr *address,
                             socklen_t *length) {
    struct descriptor *descriptor = &descriptors[descriptor_find(file)];
    if (!(flags & MSG_DONTWAIT))
        arrivals_wait_plainly(descriptor_find(file));
    descriptor->does_not_wait = flags & MSG_DONTWAIT;
    ssize_t count = packets_receive(file, bytes, size, flags, address, length, NULL);
    descriptor->does_not_wait = false;
    return count;
}

/* Lets the program read by a system call that no call of the machine stands for. It is not in the recording. */
static void pass_by(int file, const char *name, const void *address, bool leaves_bytes) {
    call_enter(name, address);
    if (session_is_again())
        refuse("what the system answers is not in the recording; read and recv without flags are");
    descriptor_begin_call(file);
    if (!leaves_bytes)
        input_leave(descriptor_find(file));
}

EXPORTED ssize_t recvfrom(int file, void *bytes, size_t size, int flags, struct sockaddr *restrict address,
                          socklen_t *restrict length) {
    if (is_known(file) && !(flags & ~PLAIN_FLAGS)) {
        CALL_ENTER();
        return receive_known(file, bytes, size, flags, address, length);
    }
    if (is_known(file))
        pass_by(file, __func__, __builtin_return_address(0), flags & MSG_PEEK);
    return syscall(SYS_recvfrom, file, bytes, size, flags, address, length);
}

EXPORTED ssize_t recv(int file, void *bytes, size_t size, int flags) {
    return recvfrom(file, bytes, size, flags, NULL, NULL);
}

EXPORTED ssize_t recvmsg(int file, struct msghdr *message, int flags) {
    if (is_known(file))
        pass_by(file, __func__, __builtin_return_address(0), flags & MSG_PEEK);
    return syscall(SYS_recvmsg, file, message, flags);
}

/* The functions that a program calls if it is compiled with _FORTIFY_SOURCE. */
ssize_t __read_chk(int file, void *bytes, size_t size, size_t room);
ssize_t __recv_chk(int file, void *bytes, size_t size, size_t room, int flags);
ssize_t __recvfrom_chk(int file, void *bytes, size_t size, size_t room, int flags, struct sockaddr *address,
                       socklen_t *length);
void __chk_fail(void) __attribute__((noreturn));

EXPORTED ssize_t __read_chk(int file, void *bytes, size_t size, size_t room) {
    return size <= room ? read(file, bytes, size) : (__chk_fail(), -1);
}

EXPORTED ssize_t __recv_chk(int file, void *bytes, size_t size, size_t room, int flags) {
    return size <= room ? recvfrom(file, bytes, size, flags, NULL, NULL) : (__chk_fail(), -1);
}

EXPORTED ssize_t __recvfrom_chk(int file, void *bytes, size_t size, size_t room, int flags, struct sockaddr *address,
                                socklen_t *length) {
    return size <= room ? recvfrom(file, bytes, size, flags, address, length) : (__chk_fail(), -1);
}

/* ---- writing */

/* Makes the system call of a write, behind the output that is kept. Nothing is written to what is not there in a run
   from a recording. */
static ssize_t send_message(int file, const struct msghdr *message, int flags) {
    int number = descriptor_find(file);
    struct descriptor *descriptor = &descriptors[number];
    bool is_socket = descriptor->kind == SOCKET || descriptor->kind == DATAGRAMS || descriptor->kind == LISTENER;
    ssize_t size = io_size(message->msg_iov, message->msg_iovlen), sent = size;
    if (!descriptor->is_outside) {
        output_wait(number);
        sent = is_socket ? syscall(SYS_sendmsg, file, message, flags)
                         : syscall(SYS_writev, file, message->msg_iov, message->msg_iovlen);
    }
    return io_plain_result(number, size, sent, flags);
}

static ssize_t send_bytes(int file, const void *bytes, size_t size, int flags, const struct sockaddr *address,
                          socklen_t length) {
    struct iovec part = {(void *)bytes, size};
    struct msghdr message = {
        .msg_name = (void *)address, .msg_namelen = address ? length : 0, .msg_iov = &part, .msg_iovlen = 1};
    return send_message(file, &message, flags);
}

EXPORTED ssize_t write(int file, const void *bytes, size_t size) {
    return is_known(file) ? send_bytes(file, bytes, size, 0, NULL, 0) : syscall(SYS_write, file, bytes, size);
}

EXPORTED ssize_t writev(int file, const struct iovec *parts, int count) {
    if (!is_known(file))
        return syscall(SYS_writev, file, parts, count);
    return send_message(file, &(struct msghdr){.msg_iov = (struct iovec *)parts, .msg_iovlen = count}, 0);
}

EXPORTED ssize_t sendto(int file, const void *bytes, size_t size, int flags, const struct sockaddr *address,
                        socklen_t length) {
    if (!is_known(file))
        return syscall(SYS_sendto, file, bytes, size, flags, address, length);
    return send_bytes(file, bytes, size, flags, address, length);
}

EXPORTED ssize_t send(int file, const void *bytes, size_t size, int flags) {
    return sendto(file, bytes, size, flags, NULL, 0);
}

EXPORTED ssize_t sendmsg(int file, const struct msghdr *message, int flags) {
    return is_known(file) ? send_message(file, message, flags) : syscall(SYS_sendmsg, file, message, flags);
}

/* ---- connections */

EXPORTED int accept4(int file, struct sockaddr *restrict address, socklen_t *restrict size, int flags) {
    if (!is_known(file))
        return syscall(SYS_accept4, file, address, size, flags);
    CALL_ENTER();
    arrivals_wait_plainly(descriptor_find(file));
    return sockets_accept(file, address, size, flags, NULL);
}

EXPORTED int accept(int file, struct sockaddr *restrict address, socklen_t *restrict size) {
    return accept4(file, address, size, 0);
}

EXPORTED int connect(int file, const struct sockaddr *address, socklen_t size) {
    if (!is_known(file))
        return names_connect(file, address, size);
    CALL_ENTER();
    return sockets_connect(file, address, size, true, NULL);
}
