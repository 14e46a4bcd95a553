/* The function of an event makes a call. It runs for no thread. */
#include <pth.h>
#include <stdio.h>

static pth_msgport_t port;

static int has_message(void *unused) {
    (void)unused;
    return pth_msgport_pending(port); /* refused */
}

int main(void) {
    pth_init();
    port = pth_msgport_create("port");
    puts("before");
    pth_wait(pth_event(PTH_EVENT_FUNC, has_message, NULL, pth_time(0, 1000)));
    puts("after");
    return 0;
}
