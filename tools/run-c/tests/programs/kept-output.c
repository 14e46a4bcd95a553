/* Output for which the system has no room: what is left at the end of the program reaches another process, which reads
   later. */
#include <fcntl.h>
#include <pth.h>
#include <stdio.h>
#include <sys/wait.h>
#include <unistd.h>

enum { ROOM = 4096 };

/* Fills a pipe by write(2), of which Pth does not know. */
static void fill(int file) {
    static char bytes[ROOM];
    int flags = fcntl(file, F_GETFL);
    fcntl(file, F_SETFL, flags | O_NONBLOCK);
    while (write(file, bytes, sizeof bytes) > 0)
        continue;
    fcntl(file, F_SETFL, flags);
}

static int write_last(int file, int ready) {
    pth_init();
    pth_write(file, "first", 5);
    fill(file);
    close(ready);
    pth_write(file, "last", 4);
    pth_kill();
    return 0;
}

static long count_bytes(int file, int ready) {
    char bytes[ROOM];
    long count = 0;
    ssize_t length = read(ready, bytes, 1); /* until the pipe is full */
    sleep(1);
    while ((length = read(file, bytes, sizeof bytes)) > 0)
        count += length;
    return count;
}

int main(void) {
    int pipes[2], ready[2];
    if (pipe(pipes) != 0 || pipe(ready) != 0)
        return 1;
    if (fork() == 0)
        return write_last(pipes[1], ready[1]);
    close(pipes[1]);
    close(ready[1]);
    printf("the other process: %ld bytes\n", count_bytes(pipes[0], ready[0]));
    wait(NULL);
    return 0;
}
