/* Does my program depend on an order that the manual does not promise? Run it on Debian's library and by run-c. If the
   outputs differ, the program depends on a difference that docs/differences.md lists. This program hands over the
   numbers 1, 2 and 3 in three ways:

       order notify   Main notifies, and writes the next number at once. On Debian's library the notified thread runs
                      before pth_cond_notify returns, so it takes all three numbers. The manual does not promise that.
                      On the machine main goes on, and two numbers are lost.
       order yield    Main yields to the thread that adds the number. The manual promises that this thread runs next.
                      On the machine it does. On Debian's library it does not, since its priority is lower.
       order wait     Main waits until the number was taken. The output is the same on both. */
#include <pth.h>
#include <stdio.h>
#include <string.h>

enum { NUMBERS = 3 };

static pth_mutex_t mutex = PTH_MUTEX_INIT;
static pth_cond_t filled = PTH_COND_INIT, emptied = PTH_COND_INIT;
static int number, sum;

/* Takes a number at each notify. */
static void *taker(void *unused) {
    pth_mutex_acquire(&mutex, FALSE, NULL);
    for (;;) {
        pth_cond_await(&filled, &mutex, NULL);
        printf("took %d\n", number);
        sum += number;
        number = 0;
        pth_cond_notify(&emptied, FALSE);
    }
    return unused;
}

static void hand_over_and_notify(void) {
    for (int i = 1; i <= NUMBERS; i++) {
        number = i;
        pth_cond_notify(&filled, FALSE);
    }
    pth_yield(NULL);
}

static void hand_over_and_wait(void) {
    pth_mutex_acquire(&mutex, FALSE, NULL);
    for (int i = 1; i <= NUMBERS; i++) {
        number = i;
        pth_cond_notify(&filled, FALSE);
        while (number != 0)
            pth_cond_await(&emptied, &mutex, NULL);
    }
    pth_mutex_release(&mutex);
}

static void *adder(void *unused) {
    while (number <= NUMBERS) {
        sum += number;
        pth_yield(NULL);
    }
    return unused;
}

/* The adder has the least priority and is ready when main, which has the greatest, yields to it. */
static void hand_over_and_yield(void) {
    pth_attr_t attributes = pth_attr_new(), own = pth_attr_of(pth_self());
    pth_attr_set(own, PTH_ATTR_PRIO, PTH_PRIO_MAX);
    pth_attr_set(attributes, PTH_ATTR_PRIO, PTH_PRIO_MIN);
    pth_t thread = pth_spawn(attributes, adder, NULL);
    pth_yield(NULL);
    for (number = 1; number <= NUMBERS; number++)
        pth_yield(thread);
    printf("the sum is %d\n", sum);
    pth_join(thread, NULL);
}

static void take_and(void (*hand_over)(void)) {
    pth_t thread = pth_spawn(PTH_ATTR_DEFAULT, taker, NULL);
    pth_yield(NULL);
    hand_over();
    printf("the sum is %d\n", sum);
    pth_cancel(thread);
    pth_join(thread, NULL);
}

int main(int words, char **word) {
    const char *way = words > 1 ? word[1] : "wait";
    pth_init();
    if (strcmp(way, "yield") == 0)
        hand_over_and_yield();
    else
        take_and(strcmp(way, "notify") == 0 ? hand_over_and_notify : hand_over_and_wait);
    pth_kill();
    return 0;
}
