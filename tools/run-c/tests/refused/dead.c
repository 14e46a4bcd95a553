/* An event of the end of any thread. A script has events of one thread. */
#include <pth.h>
#include <stdio.h>

int main(void) {
    pth_init();
    pth_yield(NULL);
    puts("before");
    pth_event(PTH_EVENT_TID | PTH_UNTIL_TID_DEAD, NULL); /* refused */
    puts("after");
    return 0;
}
