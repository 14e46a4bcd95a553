/* Actions of signals: what the program is told of its handlers, and calls of Pth after a handler has returned or was
   left by siglongjmp. No handler makes a call. */
#define _GNU_SOURCE
#include <pth.h>
#include <setjmp.h>
#include <signal.h>
#include <stdio.h>
#include <string.h>
#include <sys/time.h>
#include <unistd.h>

#pragma GCC diagnostic ignored "-Wdeprecated-declarations" /* of siginterrupt and sigset */

static volatile sig_atomic_t count, of_me;
static sigjmp_buf place;

static void plain(int number) {
    count += number != 0;
}

static void with_info(int number, siginfo_t *info, void *context) {
    count += number == SIGUSR2 && context != NULL;
    of_me = info->si_pid == getpid();
}

static void leaving(int number) {
    siglongjmp(place, number);
}

static void nesting(int number) {
    (void)number;
    kill(getpid(), SIGUSR1);
    count += 10;
}

static const char *name_of(void (*handler)(int)) {
    struct sigaction action = {.sa_sigaction = with_info};
    return handler == SIG_DFL             ? "default"
           : handler == SIG_IGN           ? "ignore"
           : handler == plain             ? "plain"
           : handler == leaving           ? "leaving"
           : handler == nesting           ? "nesting"
           : handler == action.sa_handler ? "with_info"
                                          : "unknown";
}

static void show(const char *what, int number) {
    struct sigaction action;
    sigaction(number, NULL, &action);
    printf("%s: %s%s%s%s, count %d\n", what, name_of(action.sa_handler), action.sa_flags & SA_SIGINFO ? " info" : "",
           action.sa_flags & SA_RESTART ? " restart" : "", action.sa_flags & (int)SA_RESETHAND ? " once" : "",
           (int)count);
    pth_yield(NULL);
}

static void use_signal(void) {
    show("at the beginning", SIGUSR1);
    printf("before: %s\n", name_of(signal(SIGUSR1, plain)));
    kill(getpid(), SIGUSR1);
    show("signal", SIGUSR1);
    siginterrupt(SIGUSR1, 1);
    show("siginterrupt", SIGUSR1);
    printf("before: %s\n", name_of(signal(SIGUSR1, SIG_IGN)));
    kill(getpid(), SIGUSR1);
    show("ignored", SIGUSR1);
    printf("before: %s\n", name_of(sysv_signal(SIGUSR1, plain)));
    kill(getpid(), SIGUSR1);
    show("sysv_signal", SIGUSR1);
    printf("before: %s\n", name_of(sigset(SIGUSR1, plain)));
    kill(getpid(), SIGUSR1);
    show("sigset", SIGUSR1);
    printf("before: %s\n", name_of(signal(SIGUSR1, SIG_DFL)));
    printf("an error: %s\n", signal(SIGKILL, plain) == SIG_ERR && signal(1000, plain) == SIG_ERR ? "yes" : "no");
}

static void use_sigaction(void) {
    struct sigaction action = {.sa_sigaction = with_info, .sa_flags = SA_SIGINFO | (int)SA_RESETHAND}, old;
    sigaction(SIGUSR2, &action, &old);
    printf("before: %s\n", name_of(old.sa_handler));
    show("sigaction", SIGUSR2);
    kill(getpid(), SIGUSR2);
    show(of_me ? "once, from this process" : "once", SIGUSR2);
    action = (struct sigaction){.sa_handler = nesting};
    sigaction(SIGUSR2, &action, NULL);
    signal(SIGUSR1, plain);
    kill(getpid(), SIGUSR2);
    show("nested", SIGUSR2);
    action = (struct sigaction){.sa_handler = SIG_DFL};
    sigaction(SIGUSR2, &action, &old);
    printf("before: %s\n", name_of(old.sa_handler));
    show("default", SIGUSR2);
}

static void leave_handlers(int flags) {
    static char stack[65536];
    stack_t alternate = {.ss_sp = stack, .ss_size = sizeof stack};
    struct sigaction action = {.sa_handler = leaving, .sa_flags = flags};
    sigaltstack(&alternate, NULL);
    sigaction(SIGUSR2, &action, NULL);
    for (volatile int i = 0; i < 100; i++)
        if (sigsetjmp(place, 1) == 0)
            kill(getpid(), SIGUSR2);
        else if (i % 50 == 0)
            pth_yield(NULL);
    show(flags ? "left on an alternate stack" : "left", SIGUSR2);
}

static void *sleeper(void *unused) {
    struct itimerval timer = {.it_value = {0, 20000}};
    signal(SIGALRM, plain);
    setitimer(ITIMER_REAL, &timer, NULL);
    pth_usleep(100000);
    show("after a sleep", SIGALRM);
    leave_handlers(0);
    return unused;
}

int main(void) {
    pth_init();
    use_signal();
    use_sigaction();
    leave_handlers(0);
    leave_handlers(SA_ONSTACK);
    pth_join(pth_spawn(PTH_ATTR_DEFAULT, sleeper, NULL), NULL);
    pth_kill();
    return 0;
}
