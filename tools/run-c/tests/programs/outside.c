/* Waits for a signal from outside. A handler of SIGHUP ends the process; other signals have their default action. */
#include <pth.h>
#include <signal.h>
#include <stdio.h>
#include <stdlib.h>

static void finish(int unused) {
    (void)unused;
    exit(3);
}

static void *sleeper(void *unused) {
    puts("waiting");
    fflush(stdout);
    pth_sleep(1000);
    puts("awake");
    return unused;
}

int main(void) {
    signal(SIGHUP, finish);
    pth_init();
    pth_join(pth_spawn(PTH_ATTR_DEFAULT, sleeper, NULL), NULL);
    pth_kill();
    return 0;
}
