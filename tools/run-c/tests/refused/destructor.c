/* A destructor of a cancelled thread destroys a message port. No act of a handler destroys a port. */
#include <pth.h>
#include <stdio.h>

static pth_key_t key;

static void destroy(void *port) {
    pth_msgport_destroy(port); /* refused */
}

static void *worker(void *unused) {
    pth_key_setdata(key, pth_msgport_create("port"));
    pth_sleep(100);
    return unused;
}

int main(void) {
    pth_init();
    pth_yield(NULL);
    puts("before");
    pth_key_create(&key, destroy);
    pth_t thread = pth_spawn(PTH_ATTR_DEFAULT, worker, NULL);
    pth_yield(NULL);
    pth_cancel(thread);
    pth_join(thread, NULL);
    puts("after");
    return 0;
}
