/* A full pipe: a thread writes more bytes than the pipe has room for, and another thread reads them. The write waits,
   and the process does not. */
#define _GNU_SOURCE
#include <fcntl.h>
#include <pth.h>
#include <stdio.h>
#include <unistd.h>

enum { ROOM = 4096, COUNT = 5 * ROOM };

static int ends[2];

static void *writer(void *unused) {
    static char bytes[COUNT];
    for (int i = 0; i < COUNT; i++)
        bytes[i] = (char)(i % 100);
    printf("written: %zd\n", pth_write(ends[1], bytes, COUNT));
    close(ends[1]);
    return unused;
}

/* Returns the count of bytes that came in the order in which they were written. */
static long count_in_order(void) {
    char bytes[ROOM];
    long count = 0;
    ssize_t length;
    while ((length = pth_read(ends[0], bytes, sizeof bytes)) > 0)
        for (ssize_t i = 0; i < length; i++)
            count += bytes[i] == count % 100;
    return count;
}

int main(void) {
    pth_init();
    if (pipe(ends) != 0 || fcntl(ends[1], F_SETPIPE_SZ, ROOM) != ROOM)
        return 1;
    pth_t thread = pth_spawn(PTH_ATTR_DEFAULT, writer, NULL);
    printf("read in order: %ld\n", count_in_order());
    pth_join(thread, NULL);
    pth_kill();
    return 0;
}
