/* sockets KIND: calls on sockets that no script can say, or that are beyond its limits. */
#include <arpa/inet.h>
#include <netinet/in.h>
#include <pth.h>
#include <stdio.h>
#include <string.h>
#include <sys/socket.h>
#include <unistd.h>

enum { CONNECTIONS = 64, LENGTH = 3000 };

static struct sockaddr_in address = {.sin_family = AF_INET};
static int listener, ends[2];

static void listen_somewhere(void) {
    socklen_t size = sizeof address;
    address.sin_addr.s_addr = htonl(INADDR_LOOPBACK);
    listener = socket(AF_INET, SOCK_STREAM, 0);
    if (bind(listener, (struct sockaddr *)&address, size) != 0 || listen(listener, 4) != 0)
        perror("listen");
    getsockname(listener, (struct sockaddr *)&address, &size);
}

static void connect_ends(void) {
    ends[0] = socket(AF_INET, SOCK_STREAM, 0);
    if (connect(ends[0], (struct sockaddr *)&address, sizeof address) != 0)
        perror("connect");
    ends[1] = pth_accept(listener, NULL, NULL); /* refused */
}

/* A connection is a new descriptor of the script, though the system uses the number of the last one again. */
static void accept_many(void) {
    for (int i = 0; i < CONNECTIONS; i++) {
        connect_ends();
        close(ends[0]);
        close(ends[1]);
    }
}

/* Urgent data stays for a script. */
static int has_urgent(int file) {
    fd_set exceptions;
    struct timeval none = {0, 0};
    FD_ZERO(&exceptions);
    FD_SET(file, &exceptions);
    return pth_select(file + 1, NULL, NULL, &exceptions, &none); /* refused */
}

static void take_urgent(void) {
    char byte;
    connect_ends();
    send(ends[0], "!", 1, MSG_OOB);
    pth_usleep(1000);
    printf("urgent: %d\n", has_urgent(ends[1]));
    recv(ends[1], &byte, 1, MSG_OOB);
    has_urgent(ends[1]);
}

static void send_long(void) {
    static char bytes[LENGTH];
    int socket_of_datagrams = socket(AF_INET, SOCK_DGRAM, 0);
    pth_sendto(socket_of_datagrams, bytes, LENGTH, 0, (struct sockaddr *)&address, sizeof address); /* refused */
}

int main(int words, char **word) {
    const char *kind = words > 1 ? word[1] : "peek";
    char byte;
    pth_init();
    pth_yield(NULL);
    listen_somewhere();
    puts("before");
    if (strcmp(kind, "peek") == 0)
        pth_recv(listener, &byte, 1, MSG_PEEK); /* refused */
    else if (strcmp(kind, "connections") == 0)
        accept_many();
    else if (strcmp(kind, "urgent") == 0)
        take_urgent();
    else
        send_long();
    puts("after");
    return 0;
}
