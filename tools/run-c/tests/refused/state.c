/* pth_ctrl prints the state of the library, which a script cannot. */
#include <pth.h>
#include <stdio.h>

int main(void) {
    pth_init();
    pth_yield(NULL);
    puts("before");
    pth_ctrl(PTH_CTRL_DUMPSTATE, stderr); /* refused */
    puts("after");
    return 0;
}
