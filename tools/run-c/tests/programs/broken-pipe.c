/* A write to a pipe that nobody reads any more ends the program by its signal. */
#include <pth.h>
#include <stdio.h>
#include <unistd.h>

int main(void) {
    int ends[2];
    pth_init();
    if (pipe(ends) != 0)
        return 1;
    printf("write %zd\n", pth_write(ends[1], "x", 1));
    fflush(stdout);
    close(ends[0]);
    pth_write(ends[1], "y", 1);
    puts("after");
    return 0;
}
