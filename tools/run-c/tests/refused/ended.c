/* A named pipe that is written again after its end. No script says that. */
#include <fcntl.h>
#include <pth.h>
#include <stdio.h>
#include <stdlib.h>
#include <sys/stat.h>
#include <unistd.h>

static void write_to(const char *name) {
    int file = open(name, O_WRONLY);
    if (write(file, "more", 4) != 4)
        perror("write");
    close(file);
}

int main(void) {
    char folder[] = "/tmp/ended.XXXXXX", name[64], bytes[8];
    pth_init();
    pth_yield(NULL);
    puts("before");
    if (!mkdtemp(folder))
        return 1;
    snprintf(name, sizeof name, "%s/pipe", folder);
    mkfifo(name, 0600);
    int file = open(name, O_RDONLY | O_NONBLOCK);
    fcntl(file, F_SETFL, 0);
    write_to(name);
    pth_read(file, bytes, sizeof bytes);
    pth_read(file, bytes, sizeof bytes); /* the end */
    write_to(name);
    unlink(name);
    rmdir(folder);
    pth_read(file, bytes, sizeof bytes); /* refused */
    puts("after");
    return 0;
}
