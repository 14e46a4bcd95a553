/* signal WHEN: a handler of a signal calls Pth. The signal comes while a thread runs, or while all threads wait. The
   handler runs on the stack of the thread, or on an alternate stack. */
#include <pth.h>
#include <signal.h>
#include <stdio.h>
#include <string.h>
#include <unistd.h>

static pth_msgport_t port;

static void handler(int number) {
    static pth_message_t message;
    (void)number;
    pth_msgport_put(port, &message); /* refused */
}

static void use_alternate_stack(void) {
    static char stack[65536];
    stack_t alternate = {.ss_sp = stack, .ss_size = sizeof stack};
    struct sigaction action = {.sa_handler = handler, .sa_flags = SA_ONSTACK};
    sigaltstack(&alternate, NULL);
    sigaction(SIGUSR1, &action, NULL);
}

int main(int words, char **word) {
    const char *when = words > 1 ? word[1] : "";
    struct sigaction action = {.sa_handler = handler};
    pth_init();
    pth_yield(NULL);
    puts("before");
    port = pth_msgport_create("port");
    if (strcmp(when, "waiting") == 0) {
        sigaction(SIGALRM, &action, NULL);
        alarm(1);
        pth_sleep(3);
    } else if (strcmp(when, "alternate") == 0) {
        use_alternate_stack();
    } else {
        signal(SIGUSR1, handler);
    }
    kill(getpid(), SIGUSR1);
    puts("after");
    return 0;
}
