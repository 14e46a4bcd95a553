/* killed WAY PLACE: the process ends in the way WAY at the place PLACE, 1 to 20. The ways are the names of signals, in
   small letters and without SIG, and `overflow` of the stack, `exit`, `_exit`, `_Exit`, `quick_exit` and `exec`. The
   places are between calls of three threads, in a cleanup handler that is popped, in a cleanup handler of a cancelled
   thread, in a destructor, in a function of pth_once, after pth_kill, and in a second run. */
#define _GNU_SOURCE
#include <alloca.h>
#include <pth.h>
#include <signal.h>
#include <stdio.h>
#include <stdlib.h>
#include <string.h>
#include <sys/mman.h>
#include <unistd.h>

static pth_mutex_t mutex = PTH_MUTEX_INIT;
static pth_once_t once = PTH_ONCE_INIT;
static pth_key_t key;
static const char *way;
static int last, place;

static void overflow(void) {
    for (;;)
        *(volatile char *)alloca(1000) = 0;
}

static void end_by_fault(void) {
    volatile int zero = 0;
    if (strcmp(way, "segv") == 0)
        *(volatile int *)NULL = 0;
    else if (strcmp(way, "bus") == 0)
        *(char *)mmap(NULL, 4096, PROT_WRITE, MAP_SHARED, memfd_create("empty", 0), 0) = 0;
    else if (strcmp(way, "fpe") == 0)
        zero = 1 / zero;
    else if (strcmp(way, "ill") == 0)
        __builtin_trap();
    else if (strcmp(way, "abrt") == 0)
        abort();
    else if (strcmp(way, "overflow") == 0)
        overflow();
}

static void end_by_signal(void) {
    static const struct {
        const char *name;
        int number;
    } signals[] = {{"term", SIGTERM}, {"int", SIGINT},   {"hup", SIGHUP},   {"pipe", SIGPIPE}, {"quit", SIGQUIT},
                   {"alrm", SIGALRM}, {"usr1", SIGUSR1}, {"usr2", SIGUSR2}, {"kill", SIGKILL}, {"fpe", SIGFPE}};
    for (size_t i = 0; i < sizeof signals / sizeof *signals; i++)
        if (strcmp(way, signals[i].name) == 0)
            kill(getpid(), signals[i].number);
}

static void end_process(void) {
    end_by_fault();
    end_by_signal();
    if (strcmp(way, "exec") == 0)
        execlp("sh", "sh", "-c", "exit 7", NULL);
    else if (strcmp(way, "exit") == 0)
        exit(7);
    else if (strcmp(way, "_Exit") == 0)
        _Exit(7);
    else if (strcmp(way, "quick_exit") == 0)
        quick_exit(7);
    else
        _exit(7);
}

static void here(const char *where) {
    printf("%d: %s\n", ++place, where);
    if (place == last)
        end_process();
}

static void cleanup(void *where) {
    here(where);
}

static void once_function(void *unused) {
    (void)unused;
    here("in the function of pth_once");
}

static void *first(void *unused) {
    here("as a thread begins");
    pth_mutex_acquire(&mutex, FALSE, NULL);
    here("with a mutex");
    pth_usleep(2000);
    here("after a sleep");
    pth_mutex_release(&mutex);
    here("without a mutex");
    return unused;
}

static void *second(void *unused) {
    pth_cleanup_push(cleanup, "in a cleanup handler that is popped");
    here("beside a thread that sleeps");
    pth_cleanup_pop(TRUE);
    pth_once(&once, once_function, NULL);
    pth_key_setdata(key, "in a destructor");
    here("as a thread ends");
    return unused;
}

static void *cancelled(void *unused) {
    pth_cleanup_push(cleanup, "in a cleanup handler of a cancelled thread");
    pth_sleep(100);
    return unused;
}

static void end_threads(pth_t a, pth_t b, pth_t c) {
    pth_join(b, NULL);
    here("after a join");
    pth_cancel(c);
    here("after a cancel");
    pth_join(c, NULL);
    here("after the join of a cancelled thread");
    pth_join(a, NULL);
    here("as all threads have ended");
}

int main(int words, char **word) {
    way = words > 1 ? word[1] : "";
    last = words > 2 ? atoi(word[2]) : 0;
    setvbuf(stdout, NULL, _IOLBF, 0);
    pth_init();
    pth_yield(NULL);
    here("after a first call");
    pth_key_create(&key, cleanup);
    pth_t a = pth_spawn(PTH_ATTR_DEFAULT, first, NULL), b = pth_spawn(PTH_ATTR_DEFAULT, second, NULL);
    pth_t c = pth_spawn(PTH_ATTR_DEFAULT, cancelled, NULL);
    here("after the spawns");
    end_threads(a, b, c);
    pth_kill();
    here("after pth_kill");
    pth_init();
    pth_yield(NULL);
    here("in a second run");
    pth_usleep(1000);
    here("after a sleep of the second run");
    pth_kill();
    here("after both runs");
    return 0;
}
