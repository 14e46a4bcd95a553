/* objects KIND: makes 65 objects of one kind. A script has at most 64. */
#include <pth.h>
#include <stdio.h>
#include <string.h>
#include <unistd.h>

enum { COUNT = 65 };

static pth_mutex_t mutexes[COUNT];
static pth_cond_t conditions[COUNT];
static pth_rwlock_t locks[COUNT];
static pth_barrier_t barriers[COUNT];

static void make(const char *kind, int i) {
    if (strcmp(kind, "mutexes") == 0)
        pth_mutex_init(&mutexes[i]);
    else if (strcmp(kind, "conditions") == 0)
        pth_cond_init(&conditions[i]);
    else if (strcmp(kind, "locks") == 0)
        pth_rwlock_init(&locks[i]);
    else if (strcmp(kind, "barriers") == 0)
        pth_barrier_init(&barriers[i], 2);
    else
        pth_fdmode(dup(0), PTH_FDMODE_POLL);
}

int main(int words, char **word) {
    const char *kind = words > 1 ? word[1] : "mutexes";
    pth_init();
    pth_yield(NULL);
    puts("before");
    for (int i = 0; i < COUNT; i++)
        make(kind, i);
    puts("after");
    return 0;
}
