/* calls N: eight threads together make N calls, 4,000 by default. */
#include <pth.h>
#include <stdio.h>
#include <stdlib.h>

enum { THREADS = 8, CALLS_A_ROUND = 5 };

static pth_mutex_t mutex = PTH_MUTEX_INIT;
static pth_key_t key;
static long rounds, calls;

static void *caller(void *unused) {
    for (long i = 0; i < rounds; i++) {
        pth_mutex_acquire(&mutex, FALSE, NULL);
        pth_key_setdata(key, &calls);
        calls += pth_key_getdata(key) == &calls ? CALLS_A_ROUND : 0;
        pth_mutex_release(&mutex);
        pth_yield(NULL);
    }
    return unused;
}

int main(int words, char **word) {
    rounds = (words > 1 ? atol(word[1]) : 4000) / (THREADS * CALLS_A_ROUND);
    pth_init();
    pth_key_create(&key, NULL);
    for (int i = 0; i < THREADS; i++)
        pth_spawn(PTH_ATTR_DEFAULT, caller, NULL);
    while (pth_join(NULL, NULL))
        ;
    printf("%ld calls\n", calls);
    pth_kill();
    return 0;
}
