/* Events of signals: a ring of two events; an event that is waited for twice; two threads that wait for one signal, of
   which one gets it; a moment that comes before a signal. */
#include <pth.h>
#include <signal.h>
#include <stdio.h>
#include <unistd.h>

static sigset_t first_set, second_set;

static const char *name(int number) {
    return number == SIGUSR1 ? "SIGUSR1" : number == SIGUSR2 ? "SIGUSR2" : "none";
}

static void *sender(void *number) {
    pth_usleep(10000);
    kill(getpid(), *(int *)number);
    return NULL;
}

static void show_ring(void) {
    int one = 0, two = 0, numbers[2] = {SIGUSR2, SIGUSR1};
    pth_event_t first = pth_event(PTH_EVENT_SIGS, &first_set, &one);
    pth_event(PTH_EVENT_SIGS | PTH_MODE_CHAIN, first, &second_set, &two);
    for (int i = 0; i < 2; i++) {
        one = two = 0;
        pth_t thread = pth_spawn(PTH_ATTR_DEFAULT, sender, &numbers[i]);
        int occurred = pth_wait(first);
        printf("%d occurred: %s, %s\n", occurred, name(one), name(two));
        pth_join(thread, NULL);
    }
    pth_event_free(first, PTH_FREE_ALL);
}

static int sent = SIGUSR1;

static void *waiter(void *letter) {
    int one = 0;
    pth_event_t signal = pth_event(PTH_EVENT_SIGS, &first_set, &one);
    pth_event_t moment = pth_event(PTH_EVENT_TIME | PTH_MODE_CHAIN, signal, pth_timeout(0, 100000));
    int occurred = pth_wait(signal);
    printf("thread %s: %d occurred, %s\n", (char *)letter, occurred, name(one));
    pth_event_free(moment, PTH_FREE_ALL);
    return NULL;
}

static void show_two_threads(void) {
    pth_t a = pth_spawn(PTH_ATTR_DEFAULT, waiter, "a");
    pth_t b = pth_spawn(PTH_ATTR_DEFAULT, waiter, "b");
    pth_join(pth_spawn(PTH_ATTR_DEFAULT, sender, &sent), NULL);
    pth_join(a, NULL);
    pth_join(b, NULL);
}

int main(void) {
    pth_init();
    sigemptyset(&first_set);
    sigaddset(&first_set, SIGUSR1);
    sigemptyset(&second_set);
    sigaddset(&second_set, SIGUSR2);
    pth_sigmask(SIG_BLOCK, &first_set, NULL);
    pth_sigmask(SIG_BLOCK, &second_set, NULL);
    show_ring();
    show_two_threads();
    pth_kill();
    return 0;
}
