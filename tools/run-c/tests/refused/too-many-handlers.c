/* One thread pushes 257 cleanup handlers. A script has at most 256 handlers. */
#include <pth.h>
#include <stdio.h>

static void handler(void *unused) {
    (void)unused;
}

int main(void) {
    pth_init();
    pth_yield(NULL);
    puts("before");
    for (int i = 0; i < 257; i++)
        pth_cleanup_push(handler, NULL); /* refused */
    puts("after");
    return 0;
}
