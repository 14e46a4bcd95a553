/* The end of main: by the manual, pth_exit of main waits for the other threads. Debian's library ends the process
   at once if there is one other thread. */
#include <pth.h>
#include <stdio.h>

static void *worker(void *unused) {
    pth_usleep(10000);
    printf("the worker has done its work\n");
    return unused;
}

int main(void) {
    pth_init();
    pth_spawn(PTH_ATTR_DEFAULT, worker, NULL);
    pth_yield(NULL);
    printf("main ends\n");
    pth_exit((void *)3);
    return 0;
}
