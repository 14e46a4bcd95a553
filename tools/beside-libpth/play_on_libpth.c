/* play_on_libpth [--unit U] [--library-exit] FILE plays a script on GNU Pth's C library, and writes what the library can tell, spelled as
 * in a transcript of ./play: turns without moments and ranks, calls with their answers, notes, handlers, destructors, acts and ends.
 * The library does not report wakes, idle time and stalls. FILE has to be a script that ./play takes, without a kernel section.
 *
 * Three kinds of lines are inferred, since the library does not report them either:
 * - `waits`: a call that can block was not answered when the next turn began. Each further such turn gives another `waits` line, or
 *   `retakes` for cond_await. A yield, a cond_notify and the last thread at a barrier give up control without a wait, and without a line.
 * - `takes mutex M`: a thread is canceled in cond_await, and the library's block of mutex M names this thread as the owner.
 * - `gives mutex M`, `gives rwlock L`: the block of the mutex, or that of the lock's writer, named the thread before pth_exit, pth_cancel
 *   or pth_abort released its mutexes, and does not name it at the next line. The library never takes back a reader's entry.
 *
 * A unit of time is U real microseconds, 1,000 if nothing else is said. A turn takes one unit, as in the machine: before a call that may
 * give up control, and before its end, a thread is busy until the unit is over.
 *
 * The library doesn't tell dispatches either, but it counts them by thread (PTH_ATTR_DISPATCHES). These counts are read after each call.
 * If threads were dispatched inside of their calls meanwhile, PTH_ATTR_TIME_LAST says in which order.
 *
 * Main's exit waits for the others by an event of its own, and calls pth_exit then. With --library-exit it calls pth_exit at once.
 *
 * pth_t, pth_event_t and the like are pointers here, and the library makes keys for itself: so the script has numbers of its own. A number
 * that stands for nothing is answered as by the machine, since the C call would read a freed block. If nothing can be answered so, the
 * run is given up with a line on standard error.
 *
 * After SIGTERM it writes what is left to tell, and ends. An ending is told with the next line, so a run that hangs may owe one.
 *
 * Statuses: 0 the run is over, 2 wrong words, 3 this script can't be played here, or no further, or SIGTERM came. */
#include "play_on_libpth.h"

static void tell_outcome(void) {
    tell_last_end();
    printf("ended %ld\n", threads[1]->value);
    fflush(stdout);
    _exit(0);
}

/* As the library hangs, in its select. What it owes is told: the end of a thread, or the last wait. */
static void break_off(int signal) {
    (void)signal;
    tell_last_end();
    tell_last_wait();
    _exit(3);
}

/* No descriptor of the script is open: what is said goes out above 63, and so does what the library opens for itself. */
static void clear_descriptors(void) {
    int out = fcntl(1, F_DUPFD, LOCKS + 16), err = fcntl(2, F_DUPFD, LOCKS + 16);
    stdout = fdopen(out, "w");
    stderr = fdopen(err, "w");
    if (stdout == NULL || stderr == NULL) _exit(3);
    setvbuf(stdout, NULL, _IOLBF, 0);
    setvbuf(stderr, NULL, _IONBF, 0);
    while (open("/dev/null", O_RDONLY) < LOCKS) continue;
    if (!pth_init()) give_up(1, "pth_init failed");
    for (int f = 0; f < LOCKS; f++) close(f);
}

static void begin_main(void) {
    struct thread *t = new_thread(NULL, 0, 0);
    t->tid = pth_self();
    t->attr = pth_attr_of(t->tid);
    t->dispatches = dispatches_of(t) - 1;
    atexit(tell_outcome);
    signal(SIGTERM, break_off);
    start = now();
    run_body(t);
}

int main(int argc, char **argv) {
    int i = 1;
    for (; i < argc - 1; i++) {
        if (is(argv[i], "--library-exit")) exit_is_librarys = 1;
        else if (is(argv[i], "--unit")) unit = atoll(argv[++i]);
        else break;
    }
    if (i != argc - 1 || unit < 1) {
        fprintf(stderr, "play_on_libpth: words refused\nusage: play_on_libpth [--unit MICROSECONDS] [--library-exit] FILE\n");
        return 2;
    }
    read_script(argv[i]);
    clear_descriptors();
    begin_main();
    return 0;
}
