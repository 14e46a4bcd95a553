/* Sockets: an echo server with a thread for each connection, and three clients, in one process over loopback. The
   third client begins after the others have ended, so its descriptors have numbers that were used before. */
#include <arpa/inet.h>
#include <netinet/in.h>
#include <pth.h>
#include <stdio.h>
#include <string.h>
#include <sys/socket.h>
#include <unistd.h>

enum { CLIENTS = 3 };

static struct sockaddr_in address = {.sin_family = AF_INET};
static int listener;

static void *serve(void *argument) {
    int connection = (int)(long)argument;
    char bytes[64];
    ssize_t count;
    while ((count = pth_read(connection, bytes, sizeof bytes)) > 0)
        pth_write(connection, bytes, (size_t)count);
    close(connection);
    return NULL;
}

static void *server(void *unused) {
    pth_t threads[CLIENTS];
    for (int i = 0; i < CLIENTS; i++) {
        int connection = pth_accept(listener, NULL, NULL);
        threads[i] = pth_spawn(PTH_ATTR_DEFAULT, serve, (void *)(long)connection);
    }
    for (int i = 0; i < CLIENTS; i++)
        pth_join(threads[i], NULL);
    return unused;
}

/* Returns the count of bytes that came back as they were sent, or -1 if there is no connection. */
static void *client(void *name) {
    char bytes[64];
    long same = 0;
    int connection = socket(AF_INET, SOCK_STREAM, 0);
    if (pth_connect(connection, (struct sockaddr *)&address, sizeof address) != 0)
        return (void *)-1;
    for (int i = 0; i < 2; i++) {
        int length = snprintf(bytes, sizeof bytes, "%s says %d\n", (char *)name, i), back = 0;
        char answer[64];
        pth_write(connection, bytes, (size_t)length);
        while (back < length) {
            ssize_t count = pth_read(connection, answer + back, sizeof answer - (size_t)back);
            if (count <= 0)
                break;
            back += (int)count;
        }
        if (back == length && memcmp(bytes, answer, (size_t)length) == 0)
            same += length;
    }
    close(connection);
    return (void *)same;
}

static void join_and_show(const char *name, pth_t thread) {
    void *same = NULL;
    pth_join(thread, &same);
    printf("%s got %ld bytes back\n", name, (long)same);
}

int main(void) {
    socklen_t length = sizeof address;
    address.sin_addr.s_addr = htonl(INADDR_LOOPBACK);
    pth_init();
    listener = socket(AF_INET, SOCK_STREAM, 0);
    if (bind(listener, (struct sockaddr *)&address, sizeof address) != 0 || listen(listener, CLIENTS) != 0)
        return 1;
    getsockname(listener, (struct sockaddr *)&address, &length);
    pth_t serves = pth_spawn(PTH_ATTR_DEFAULT, server, NULL);
    pth_t ann = pth_spawn(PTH_ATTR_DEFAULT, client, "Ann"), bob = pth_spawn(PTH_ATTR_DEFAULT, client, "Bob");
    join_and_show("Ann", ann);
    join_and_show("Bob", bob);
    join_and_show("Cyd", pth_spawn(PTH_ATTR_DEFAULT, client, "Cyd"));
    pth_join(serves, NULL);
    close(listener);
    join_and_show("Dan", pth_spawn(PTH_ATTR_DEFAULT, client, "Dan"));
    pth_kill();
    return 0;
}
