/* Sockets of datagrams: boundaries and addresses are kept, and a datagram that is too long for its reader is cut.
   Flags of recv and send. */
#include <arpa/inet.h>
#include <netinet/in.h>
#include <pth.h>
#include <stdio.h>
#include <sys/socket.h>
#include <unistd.h>

static int sockets[2];
static struct sockaddr_in addresses[2];

static void open_socket(int i) {
    socklen_t size = sizeof addresses[i];
    addresses[i] = (struct sockaddr_in){.sin_family = AF_INET, .sin_addr.s_addr = htonl(INADDR_LOOPBACK)};
    sockets[i] = socket(AF_INET, SOCK_DGRAM, 0);
    if (bind(sockets[i], (struct sockaddr *)&addresses[i], sizeof addresses[i]) != 0)
        perror("bind");
    getsockname(sockets[i], (struct sockaddr *)&addresses[i], &size);
}

static ssize_t send_to(int to, const char *text, size_t length) {
    return pth_sendto(sockets[1 - to], text, length, 0, (struct sockaddr *)&addresses[to], sizeof addresses[to]);
}

static void *answer(void *unused) {
    char bytes[64];
    struct sockaddr_in from;
    socklen_t size = sizeof from;
    ssize_t count = pth_recvfrom(sockets[1], bytes, sizeof bytes, 0, (struct sockaddr *)&from, &size);
    printf("%.*s from %s\n", (int)count, bytes, from.sin_port == addresses[0].sin_port ? "the first" : "another");
    send_to(0, "a long answer", 13);
    send_to(0, "and a short one", 15);
    return unused;
}

int main(void) {
    char bytes[64];
    pth_init();
    open_socket(0);
    open_socket(1);
    pth_t thread = pth_spawn(PTH_ATTR_DEFAULT, answer, NULL);
    printf("sendto %zd\n", send_to(1, "a question", 10));
    ssize_t count = pth_recv(sockets[0], bytes, 6, MSG_NOSIGNAL | MSG_DONTWAIT);
    printf("recv %zd, %.*s\n", count, (int)count, bytes);
    count = pth_read(sockets[0], bytes, sizeof bytes);
    printf("read %zd, %.*s\n", count, (int)count, bytes);
    pth_join(thread, NULL);
    pth_kill();
    return 0;
}
