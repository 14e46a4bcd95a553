/* A pipe that nobody reads: the thread that writes to it waits, and the others run. */
#define _GNU_SOURCE
#include <fcntl.h>
#include <pth.h>
#include <stdio.h>
#include <unistd.h>

enum { ROOM = 4096 };

static int ends[2];
static int is_written;

static void *write_all(void *unused) {
    static char bytes[2 * ROOM];
    pth_write(ends[1], bytes, sizeof bytes);
    is_written = 1;
    return unused;
}

int main(void) {
    pth_init();
    if (pipe(ends) != 0 || fcntl(ends[1], F_SETPIPE_SZ, ROOM) != ROOM)
        return 1;
    pth_t thread = pth_spawn(PTH_ATTR_DEFAULT, write_all, NULL);
    for (int i = 0; i < 3; i++)
        pth_yield(NULL);
    printf("written: %d\n", is_written);
    pth_cancel(thread);
    pth_join(thread, NULL);
    pth_kill();
    return 0;
}
