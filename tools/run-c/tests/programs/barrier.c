/* Barriers: three threads meet twice. By the manual, the first thread of a round gets PTH_BARRIER_HEADLIGHT. On
   Debian's library no thread gets it. */
#include <pth.h>
#include <stdio.h>

static pth_barrier_t barrier = PTH_BARRIER_INIT(3);
static int light[2][3];

static const char *name(int answer) {
    return answer == PTH_BARRIER_HEADLIGHT   ? "HEADLIGHT"
           : answer == PTH_BARRIER_TAILLIGHT ? "TAILLIGHT"
           : answer == TRUE                  ? "TRUE"
                                             : "an error";
}

static void *walker(void *argument) {
    long number = (long)argument;
    for (int round = 0; round < 2; round++)
        light[round][number] = pth_barrier_reach(&barrier);
    return NULL;
}

int main(void) {
    pth_t walkers[2];
    pth_init();
    for (long i = 0; i < 2; i++)
        walkers[i] = pth_spawn(PTH_ATTR_DEFAULT, walker, (void *)i);
    walker((void *)2);
    pth_join(walkers[0], NULL);
    pth_join(walkers[1], NULL);
    for (int round = 0; round < 2; round++)
        printf("round %d: %s, %s, %s\n", round, name(light[round][0]), name(light[round][1]), name(light[round][2]));
    printf("a barrier for no thread: %s\n", pth_barrier_init(&barrier, 0) ? "made" : "refused");
    pth_kill();
    return 0;
}
