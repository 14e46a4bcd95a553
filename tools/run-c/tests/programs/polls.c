/* Poll and select: several sets, exceptional conditions, descriptors that are not open, and lost connections. */
#include <arpa/inet.h>
#include <errno.h>
#include <netinet/in.h>
#include <poll.h>
#include <pth.h>
#include <stdio.h>
#include <string.h>
#include <sys/socket.h>
#include <unistd.h>

static int ends[2];

static void show_poll(const char *when, struct pollfd *polls, int count, int timeout) {
    int found = pth_poll(polls, (nfds_t)count, timeout);
    printf("poll %s: %d", when, found);
    for (int i = 0; i < count && found > 0; i++)
        printf(", %#x", (unsigned)polls[i].revents);
    printf("\n");
}

/* Makes a connection over loopback. */
static void connect_ends(void) {
    struct sockaddr_in address = {.sin_family = AF_INET, .sin_addr.s_addr = htonl(INADDR_LOOPBACK)};
    socklen_t size = sizeof address;
    int listener = socket(AF_INET, SOCK_STREAM, 0);
    if (bind(listener, (struct sockaddr *)&address, sizeof address) != 0 || listen(listener, 1) != 0)
        perror("listen");
    getsockname(listener, (struct sockaddr *)&address, &size);
    ends[0] = socket(AF_INET, SOCK_STREAM, 0);
    if (connect(ends[0], (struct sockaddr *)&address, size) != 0)
        perror("connect");
    ends[1] = accept(listener, NULL, NULL);
    close(listener);
}

static void show_select(const char *when, int milliseconds) {
    fd_set reads, writes, exceptions;
    struct timeval length = {milliseconds / 1000, milliseconds % 1000 * 1000};
    FD_ZERO(&reads);
    FD_ZERO(&writes);
    FD_ZERO(&exceptions);
    FD_SET(ends[0], &reads);
    FD_SET(ends[1], &writes);
    FD_SET(ends[0], &exceptions);
    int limit = (ends[0] > ends[1] ? ends[0] : ends[1]) + 1;
    int count = pth_select(limit, &reads, &writes, &exceptions, &length);
    printf("select %s: %d, %d %d %d\n", when, count, FD_ISSET(ends[0], &reads) != 0, FD_ISSET(ends[1], &writes) != 0,
           FD_ISSET(ends[0], &exceptions) != 0);
}

static void lose_connection(void) {
    struct linger none = {1, 0};
    setsockopt(ends[1], SOL_SOCKET, SO_LINGER, &none, sizeof none);
    close(ends[1]);
}

int main(void) {
    char bytes[16];
    pth_init();
    connect_ends();
    struct pollfd polls[3] = {{.fd = ends[0], .events = POLLIN | POLLOUT},
                              {.fd = 700, .events = POLLIN},
                              {.fd = ends[1], .events = POLLIN | POLLRDNORM}};
    show_poll("of a descriptor that is not open", &polls[1], 1, 10);
    show_poll("of three", polls, 3, -1);
    show_select("before the byte", 10);
    send(ends[1], "!", 1, MSG_OOB);
    show_select("after the byte", 1000);
    pth_write(ends[0], "hello", 5);
    show_poll("after a write", &polls[2], 1, -1);
    printf("read %zd\n", pth_read(ends[1], bytes, sizeof bytes));
    lose_connection();
    show_poll("of a lost connection", &polls[0], 1, -1);
    printf("read %zd\n", pth_read(ends[0], bytes, sizeof bytes));
    printf("poll without end: %s\n", pth_poll(polls, 1, -2) < 0 && errno == EINVAL ? "EINVAL" : "another answer");
    pth_kill();
    return 0;
}
