/* One thread makes 4,097 calls. A body of a script has at most 4,096 lines. */
#include <pth.h>
#include <stdio.h>

int main(void) {
    pth_init();
    pth_yield(NULL);
    puts("before");
    for (int i = 0; i < 4097; i++)
        pth_yield(NULL); /* refused */
    puts("after");
    return 0;
}
