/* pth_fork makes a second process. A recording has one process. */
#include <pth.h>
#include <stdio.h>

int main(void) {
    pth_init();
    pth_yield(NULL);
    puts("before");
    pth_fork(); /* refused */
    puts("after");
    return 0;
}
