/* Read-write locks: two readers at once, and a writer that tries. The reader that entered first leaves first. On
   Debian's library the writer then enters beside the other reader, and the release of that reader fails. On the
   machine the writer has to wait for that reader. */
#include <errno.h>
#include <pth.h>
#include <stdio.h>

static pth_rwlock_t lock = PTH_RWLOCK_INIT;

static const char *answer(int holds) {
    return holds              ? "done"
           : errno == EBUSY   ? "EBUSY"
           : errno == EACCES  ? "EACCES"
           : errno == EDEADLK ? "EDEADLK"
                              : "another error";
}

static void *reader(void *argument) {
    long number = (long)argument;
    printf("reader %ld enters: %s\n", number, answer(pth_rwlock_acquire(&lock, PTH_RWLOCK_RD, FALSE, NULL)));
    pth_usleep(20000 * (unsigned)number);
    printf("reader %ld leaves: %s\n", number, answer(pth_rwlock_release(&lock)));
    return NULL;
}

static void try_to_write(const char *when) {
    int enters = pth_rwlock_acquire(&lock, PTH_RWLOCK_RW, TRUE, NULL);
    printf("writer tries %s: %s\n", when, answer(enters));
    if (enters)
        pth_rwlock_release(&lock);
}

int main(void) {
    pth_init();
    printf("writer enters: %s\n", answer(pth_rwlock_acquire(&lock, PTH_RWLOCK_RW, FALSE, NULL)));
    pth_t first = pth_spawn(PTH_ATTR_DEFAULT, reader, (void *)1);
    pth_t second = pth_spawn(PTH_ATTR_DEFAULT, reader, (void *)2);
    pth_yield(NULL);
    printf("writer leaves: %s\n", answer(pth_rwlock_release(&lock)));
    pth_usleep(10000);
    try_to_write("beside two readers");
    pth_usleep(20000);
    try_to_write("beside one reader");
    pth_join(first, NULL);
    pth_join(second, NULL);
    try_to_write("beside no reader");
    pth_kill();
    return 0;
}
