/* What a stream and a recv with MSG_PEEK read of a descriptor of Pth, which no call of a script can say. */
#include <pth.h>
#include <stdio.h>
#include <sys/socket.h>
#include <unistd.h>

static int ends[2];

static int is_readable(int file) {
    fd_set files;
    struct timeval none = {0, 0};
    FD_ZERO(&files);
    FD_SET(file, &files);
    return pth_select(file + 1, &files, NULL, NULL, &none);
}

int main(void) {
    char bytes[16], line[16] = "";
    pth_init();
    if (socketpair(AF_UNIX, SOCK_STREAM, 0, ends) != 0)
        return 1;
    pth_write(ends[1], "a line\nand more", 15);
    printf("readable: %d\n", is_readable(ends[0]));
    ssize_t count = recv(ends[0], bytes, 6, MSG_PEEK);
    printf("recv with MSG_PEEK: %.*s\n", (int)count, bytes);
    FILE *stream = fdopen(dup(ends[0]), "r");
    printf("fgets: %s", fgets(line, sizeof line, stream));
    printf("readable: %d\n", is_readable(ends[0]));
    fclose(stream);
    pth_write(ends[1], "the end", 7);
    count = pth_read(ends[0], bytes, sizeof bytes);
    printf("pth_read: %.*s\n", (int)count, bytes);
    pth_kill();
    return 0;
}
