/* Connections: refused ones, one that is begun without a wait, addresses of both sides, and errors of a lost one. */
#include <arpa/inet.h>
#include <errno.h>
#include <netinet/in.h>
#include <pth.h>
#include <signal.h>
#include <stdio.h>
#include <string.h>
#include <sys/socket.h>
#include <unistd.h>

static struct sockaddr_in address = {.sin_family = AF_INET};
static int listener;

static void listen_somewhere(void) {
    socklen_t size = sizeof address;
    address.sin_addr.s_addr = htonl(INADDR_LOOPBACK);
    listener = socket(AF_INET, SOCK_STREAM, 0);
    if (bind(listener, (struct sockaddr *)&address, sizeof address) != 0 || listen(listener, 4) != 0)
        perror("listen");
    getsockname(listener, (struct sockaddr *)&address, &size);
}

static int connect_socket(int file) {
    return pth_connect(file, (struct sockaddr *)&address, sizeof address);
}

static void show_error(const char *what, long answer) {
    printf("%s: %s\n", what, answer < 0 ? strerror(errno) : "no error");
}

static int asked_error(int file) {
    int error = -1;
    socklen_t size = sizeof error;
    getsockopt(file, SOL_SOCKET, SO_ERROR, &error, &size);
    return error;
}

/* Connects without a wait, and waits by a select. */
static int begin_and_wait(void) {
    fd_set writes;
    int file = socket(AF_INET, SOCK_STREAM, 0);
    pth_fdmode(file, PTH_FDMODE_NONBLOCK);
    show_error("connect without a wait", connect_socket(file));
    FD_ZERO(&writes);
    FD_SET(file, &writes);
    printf("writeable: %d", pth_select(file + 1, NULL, &writes, NULL, NULL));
    printf(", %s\n", strerror(asked_error(file)));
    pth_fdmode(file, PTH_FDMODE_BLOCK);
    return file;
}

static void show_names(int connected, int accepted, const struct sockaddr_in *peer) {
    struct sockaddr_in one, other;
    socklen_t size = sizeof one;
    getsockname(connected, (struct sockaddr *)&one, &size);
    getpeername(accepted, (struct sockaddr *)&other, &size);
    printf("the peer is the other side: %d, %d\n", one.sin_port == other.sin_port, one.sin_port == peer->sin_port);
}

static void show_loss(int connected, int accepted) {
    char byte;
    struct linger none = {1, 0};
    pth_write(accepted, "x", 1);
    setsockopt(accepted, SOL_SOCKET, SO_LINGER, &none, sizeof none);
    close(accepted);
    show_error("write", pth_write(connected, "x", 1));
    show_error("another write", pth_write(connected, "x", 1));
    show_error("read", pth_read(connected, &byte, 1));
}

int main(void) {
    struct sockaddr_in peer;
    socklen_t size = sizeof peer;
    signal(SIGPIPE, SIG_IGN);
    pth_init();
    listen_somewhere();
    int connected = begin_and_wait();
    int accepted = pth_accept(listener, (struct sockaddr *)&peer, &size);
    show_names(connected, accepted, &peer);
    show_loss(connected, accepted);
    show_error("accept of no listener", pth_accept(connected, NULL, NULL));
    close(connected);
    close(listener);
    int refused = socket(AF_INET, SOCK_STREAM, 0);
    show_error("connect", connect_socket(refused));
    close(begin_and_wait());
    pth_kill();
    return 0;
}
