/* The machine has no average load. */
#include <pth.h>
#include <stdio.h>

int main(void) {
    float load = 0;
    pth_init();
    pth_yield(NULL);
    puts("before");
    pth_ctrl(PTH_CTRL_GETAVLOAD, &load); /* refused */
    puts("after");
    return 0;
}
