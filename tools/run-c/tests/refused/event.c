/* An event of a mutex. The machine has no such event. */
#include <pth.h>
#include <stdio.h>

static pth_mutex_t mutex = PTH_MUTEX_INIT;

int main(void) {
    pth_init();
    pth_yield(NULL);
    puts("before");
    pth_event(PTH_EVENT_MUTEX, &mutex); /* refused */
    puts("after");
    return 0;
}
