/* pth_raise sends a signal to one thread. The machine has no signals. */
#include <pth.h>
#include <signal.h>
#include <stdio.h>

int main(void) {
    pth_init();
    pth_yield(NULL);
    puts("before");
    pth_raise(pth_self(), SIGUSR1); /* refused */
    puts("after");
    return 0;
}
