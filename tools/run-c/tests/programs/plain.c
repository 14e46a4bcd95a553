/* Functions of the C library on descriptors of Pth: close, fclose, dup, dup2, shutdown, read and write. */
#include <errno.h>
#include <fcntl.h>
#include <pth.h>
#include <signal.h>
#include <stdio.h>
#include <string.h>
#include <sys/socket.h>
#include <unistd.h>

static int ends[2];

static void show(const char *what, ssize_t count, const char *bytes) {
    printf("%s: %zd, %.*s\n", what, count, count > 0 ? (int)count : 0, bytes);
}

static void *write_later(void *unused) {
    pth_usleep(1000);
    pth_write(ends[1], "later", 5);
    return unused;
}

static int is_readable(int file) {
    fd_set files;
    struct timeval none = {0, 0};
    FD_ZERO(&files);
    FD_SET(file, &files);
    return pth_select(file + 1, &files, NULL, NULL, &none);
}

/* A read(2) after a select, and a select after that. */
static void show_read(void) {
    char bytes[16];
    pth_write(ends[1], "one two", 7);
    printf("readable: %d\n", is_readable(ends[0]));
    show("read", read(ends[0], bytes, 3), bytes);
    printf("readable: %d\n", is_readable(ends[0]));
    show("pth_read", pth_read(ends[0], bytes, sizeof bytes), bytes);
    printf("readable: %d\n", is_readable(ends[0]));
}

/* A duplicate is the same descriptor, which is open until both are closed. */
static void show_duplicate(void) {
    char bytes[16];
    int copy = dup(ends[0]);
    pth_t thread = pth_spawn(PTH_ATTR_DEFAULT, write_later, NULL);
    close(ends[0]);
    show("pth_read of a duplicate", pth_read(copy, bytes, sizeof bytes), bytes);
    pth_join(thread, NULL);
    ends[0] = copy;
}

/* An fclose closes the descriptor of its stream too. */
static void show_fclose(void) {
    char bytes[16];
    int pipes[2], numbers[2];
    if (pipe(pipes) != 0)
        perror("pipe");
    FILE *stream = fdopen(pipes[1], "w");
    fputs("by stdio", stream);
    fflush(stream);
    show("pth_read", pth_read(pipes[0], bytes, sizeof bytes), bytes);
    printf("write: %zd\n", write(pipes[1], "by write", 8));
    show("pth_read", pth_read(pipes[0], bytes, sizeof bytes), bytes);
    pth_write(pipes[1], "by Pth", 6);
    fputs(", the last", stream);
    fclose(stream);
    show("pth_read", pth_read(pipes[0], bytes, sizeof bytes), bytes);
    printf("pth_read after fclose: %zd\n", pth_read(pipes[0], bytes, sizeof bytes));
    close(pipes[0]);
    if (pipe(numbers) == 0)
        printf("the numbers are used again: %d\n", numbers[0] == pipes[0] && numbers[1] == pipes[1]);
    pth_write(numbers[1], "again", 5);
    show("pth_read", pth_read(numbers[0], bytes, sizeof bytes), bytes);
}

/* The other side learns of a shutdown, and a number that is used again is another descriptor. */
static void show_ends(void) {
    char bytes[16];
    int pipes[2];
    shutdown(ends[1], SHUT_WR);
    printf("pth_read after shutdown: %zd\n", pth_read(ends[0], bytes, sizeof bytes));
    printf("pth_write after shutdown: %s\n", pth_write(ends[1], "x", 1) < 0 && errno == EPIPE ? "EPIPE" : "another");
    if (pipe(pipes) != 0)
        perror("pipe");
    dup2(pipes[0], ends[0]);
    pth_write(pipes[1], "by a pipe", 9);
    show("pth_read after dup2", pth_read(ends[0], bytes, sizeof bytes), bytes);
    close(ends[0]);
    printf("pth_read after close: %s\n", pth_read(ends[0], bytes, 1) < 0 && errno == EBADF ? "EBADF" : "another");
}

int main(void) {
    signal(SIGPIPE, SIG_IGN);
    pth_init();
    if (socketpair(AF_UNIX, SOCK_STREAM, 0, ends) != 0)
        return 1;
    show_read();
    show_duplicate();
    show_fclose();
    show_ends();
    pth_kill();
    return 0;
}
