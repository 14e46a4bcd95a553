/* A user context would run code that the machine does not schedule. */
#include <pth.h>
#include <stdio.h>

int main(void) {
    pth_uctx_t context;
    pth_init();
    pth_yield(NULL);
    puts("before");
    pth_uctx_create(&context); /* refused */
    puts("after");
    return 0;
}
