/* Many threads: N of them, 1,000 by default, of which 100 exist at once. */
#include <pth.h>
#include <stdio.h>
#include <stdlib.h>

enum { AT_ONCE = 100 };

static void *count_up(void *sum) {
    *(long *)sum += 1;
    return sum;
}

int main(int words, char **word) {
    long count = words > 1 ? atol(word[1]) : 1000, sum = 0, joined = 0;
    pth_init();
    for (long i = 0; i < count; i += AT_ONCE) {
        long wave = count - i < AT_ONCE ? count - i : AT_ONCE;
        for (long k = 0; k < wave; k++)
            pth_spawn(PTH_ATTR_DEFAULT, count_up, &sum);
        for (long k = 0; k < wave; k++)
            joined += pth_join(NULL, NULL);
    }
    printf("%ld threads ran, %ld were joined\n", sum, joined);
    pth_kill();
    return 0;
}
