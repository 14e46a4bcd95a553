/* Signals: a thread waits for SIGUSR1, SIGUSR2 or a time, and another thread sends the signals to the process. A
   handler that makes no call of Pth counts SIGHUP. */
#include <errno.h>
#include <pth.h>
#include <signal.h>
#include <stdio.h>
#include <unistd.h>

static sigset_t set;
static volatile sig_atomic_t hangups;

static void count_hangup(int number) {
    (void)number;
    hangups++;
}

static void *sender(void *unused) {
    pth_usleep(10000);
    kill(getpid(), SIGUSR1);
    pth_usleep(10000);
    kill(getpid(), SIGUSR2);
    return unused;
}

static void wait_and_show(long milliseconds) {
    int signal = 0;
    pth_event_t moment = pth_event(PTH_EVENT_TIME, pth_timeout(0, milliseconds * 1000));
    int answer = pth_sigwait_ev(&set, &signal, moment);
    int is_late = pth_event_status(moment) == PTH_STATUS_OCCURRED;
    printf("%s\n", is_late ? "no signal" : answer != 0 ? "an error" : signal == SIGUSR1 ? "SIGUSR1" : "SIGUSR2");
    pth_event_free(moment, PTH_FREE_THIS);
}

int main(void) {
    sigset_t blocked;
    pth_init();
    sigemptyset(&set);
    sigaddset(&set, SIGUSR1);
    sigaddset(&set, SIGUSR2);
    pth_sigmask(SIG_BLOCK, &set, NULL);
    pth_sigmask(SIG_BLOCK, NULL, &blocked);
    printf("SIGUSR1 is %s\n", sigismember(&blocked, SIGUSR1) ? "blocked" : "not blocked");
    signal(SIGHUP, count_hangup);
    kill(getpid(), SIGHUP);
    printf("SIGHUP came %d times\n", (int)hangups);
    pth_t thread = pth_spawn(PTH_ATTR_DEFAULT, sender, NULL);
    wait_and_show(500);
    wait_and_show(500);
    wait_and_show(30);
    pth_join(thread, NULL);
    pth_kill();
    return 0;
}
