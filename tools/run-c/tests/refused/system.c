/* pth_system runs a command in a second process. */
#include <pth.h>
#include <stdio.h>

int main(void) {
    pth_init();
    pth_yield(NULL);
    puts("before");
    pth_system("true"); /* refused */
    puts("after");
    return 0;
}
