/* Descriptors: readv and writev, send and recv, poll and select, a read that a time event ends, the non-blocking
   mode, and the end of the input. */
#include <errno.h>
#include <pth.h>
#include <stdio.h>
#include <string.h>
#include <sys/socket.h>
#include <unistd.h>

static int ends[2];

static void *other_side(void *unused) {
    char bytes[16];
    struct iovec parts[2] = {{"good ", 5}, {"morning", 7}};
    printf("writev %zd\n", pth_writev(ends[1], parts, 2));
    ssize_t count = pth_recv(ends[1], bytes, sizeof bytes, 0);
    printf("recv %.*s\n", (int)count, bytes);
    pth_usleep(30000);
    close(ends[1]);
    return unused;
}

static void show_poll(const char *when, int timeout) {
    struct pollfd side = {.fd = ends[0], .events = POLLIN};
    int count = pth_poll(&side, 1, timeout);
    printf("poll %s: %d, %s\n", when, count, side.revents & POLLIN ? "readable" : "not readable");
}

static void show_select(void) {
    fd_set readable, writable;
    struct timeval none = {0, 0};
    FD_ZERO(&readable);
    FD_ZERO(&writable);
    FD_SET(ends[0], &readable);
    FD_SET(ends[0], &writable);
    int count = pth_select(ends[0] + 1, &readable, &writable, NULL, &none);
    int is_readable = FD_ISSET(ends[0], &readable) != 0, is_writable = FD_ISSET(ends[0], &writable) != 0;
    printf("select: %d, readable %d, writable %d\n", count, is_readable, is_writable);
}

static void show_errors(void) {
    char byte;
    pth_event_t moment = pth_event(PTH_EVENT_TIME, pth_timeout(0, 10000));
    ssize_t count = pth_read_ev(ends[0], &byte, 1, moment);
    printf("read until a moment: %s\n", count < 0 && errno == EINTR ? "EINTR" : "another answer");
    pth_event_free(moment, PTH_FREE_THIS);
    int before = pth_fdmode(ends[0], PTH_FDMODE_NONBLOCK);
    count = pth_read(ends[0], &byte, 1);
    printf("read in the non-blocking mode: %s\n", count < 0 && errno == EAGAIN ? "EAGAIN" : "another answer");
    pth_fdmode(ends[0], before);
    printf("read of no descriptor: %s\n", pth_read(-1, &byte, 1) < 0 && errno == EBADF ? "EBADF" : "another answer");
}

int main(void) {
    char head[4], tail[16];
    struct iovec parts[2] = {{head, sizeof head}, {tail, sizeof tail}};
    pth_init();
    if (socketpair(AF_UNIX, SOCK_STREAM, 0, ends) != 0)
        return 1;
    show_poll("at first", 10);
    pth_t thread = pth_spawn(PTH_ATTR_DEFAULT, other_side, NULL);
    show_poll("after the write", -1);
    show_select();
    ssize_t count = pth_readv(ends[0], parts, 2);
    printf("readv %zd: %.4s and %.*s\n", count, head, (int)count - 4, tail);
    printf("send %zd\n", pth_send(ends[0], "thanks", 6, 0));
    show_errors();
    printf("read at the end: %zd\n", pth_read(ends[0], head, sizeof head));
    pth_join(thread, NULL);
    pth_kill();
    return 0;
}
