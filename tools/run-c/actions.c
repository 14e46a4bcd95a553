/* What the process does at signals.

   The functions by which a program sets a handler are interposed. The system gets a function of this file in its
   place, which notes that the handler runs and calls it. Where the program leaves the default action, and this action
   ends the process, the system gets a function that saves the recording and then ends the process by the same signal.
   A program that asks for the action of a signal gets what it has set. */
#define _GNU_SOURCE
#include "actions.h"
#include "refusal.h"
#include "session.h"

#include <dlfcn.h>
#include <errno.h>
#include <signal.h>
#include <stdint.h>
#include <stdlib.h>
#include <sys/syscall.h>
#include <unistd.h>

#define EXPORTED __attribute__((visibility("default")))

enum { NESTED = 64, MARK_WORDS = 32, STACK_BYTES = 256 * 1024 };

typedef void plain_handler(int);
typedef plain_handler *set_handler(int, plain_handler *);

/* A handler that runs. It is over when it returns or is left by siglongjmp; then its mark is gone, or the stack is
   shorter. */
struct run {
    int signal;
    bool is_alternate;              /* whether it runs on the alternate stack */
    const char *frame;              /* the place of the stack from which it was called */
    volatile const uintptr_t *mark; /* words in that place that are there until the handler is over */
};

static struct sigaction asked[NSIG]; /* what the program asked for, where the system has a function of this file */
static struct run runs[NESTED];      /* the handlers that run, the outermost first */
static volatile int run_count;       /* how many there are */
static volatile bool has_run[NSIG];  /* the signals for which a handler ran since action_next_handled returned them */
static bool is_guarding;             /* whether default actions are to save the recording first */

/* ---- which handlers run */

static bool is_on_alternate_stack(void) {
    stack_t stack;
    return sigaltstack(NULL, &stack) == 0 && stack.ss_flags & SS_ONSTACK;
}

static uintptr_t mark_word(volatile const uintptr_t *mark, int i) {
    return ((uintptr_t)mark ^ 0x5bd1e995u) * (2 * i + 1);
}

static void write_mark(volatile uintptr_t *mark, bool is_there) {
    for (int i = 0; i < MARK_WORDS; i++)
        mark[i] = is_there ? mark_word(mark, i) : 0;
}

/* Whether a handler has not been left, seen from a place of the stack. Threads do not switch while it runs, so it is
   on this stack, or on the one that this alternate stack has interrupted. */
static bool is_running(const struct run *run, const char *here, bool is_alternate) {
    if (run->is_alternate != is_alternate ? run->is_alternate : run->frame < here)
        return false;
    for (int i = 0; i < MARK_WORDS; i++)
        if (run->mark[i] != mark_word(run->mark, i))
            return false;
    return true;
}

/* Forgets the handlers that were left. Returns how many run. */
static int count_runs(const char *here, bool is_alternate) {
    int count = run_count;
    while (count > 0 && !is_running(&runs[count - 1], here, is_alternate))
        count--;
    return run_count = count;
}

int action_running(void) {
    if (run_count == 0)
        return 0;
    int count = count_runs(__builtin_frame_address(0), is_on_alternate_stack());
    return count ? runs[count - 1].signal : 0;
}

int action_next_handled(void) {
    for (int signal = 1; signal < NSIG; signal++)
        if (has_run[signal]) {
            has_run[signal] = false;
            return signal;
        }
    return 0;
}

/* ---- the functions that the system gets */

/* The sigaction of the C library. */
static int set_action(int signal, const struct sigaction *action, struct sigaction *old) {
    static int (*real)(int, const struct sigaction *, struct sigaction *); /* this function */
    if (!real)
        real = dlsym(RTLD_NEXT, "sigaction");
    if (!real)
        refuse("the C library is loaded before libpth.so.20: link the program itself with -lpth");
    return real(signal, action, old);
}

static void guard(int signal);

/* Calls the handler of the program. */
static void run_handler(int signal, siginfo_t *info, void *context) {
    volatile uintptr_t mark[MARK_WORDS];
    const char *frame = __builtin_frame_address(0);
    int error = errno;
    struct sigaction action = asked[signal];
    bool is_alternate = is_on_alternate_stack();
    int outer = count_runs(frame, is_alternate);
    write_mark(mark, true);
    if (outer < NESTED) {
        runs[outer] = (struct run){signal, is_alternate, frame, mark};
        run_count = outer + 1;
    }
    if (action.sa_flags & (int)SA_RESETHAND) {
        asked[signal].sa_handler = SIG_DFL;
        guard(signal);
    }
    errno = error;
    has_run[signal] = true;
    if (action.sa_flags & SA_SIGINFO)
        action.sa_sigaction(signal, info, context);
    else
        action.sa_handler(signal);
    write_mark(mark, false);
    run_count = outer;
}

static void run_plain_handler(int signal) {
    run_handler(signal, NULL, NULL);
}

/* Whether the processor meets the fault again when it goes on. */
static bool is_fault(int signal, const siginfo_t *info) {
    return info->si_code > 0 && (signal == SIGSEGV || signal == SIGBUS || signal == SIGFPE || signal == SIGILL);
}

/* Saves the recording, and ends the process by the default action: at once when this function returns. */
static void save_and_end(int signal, siginfo_t *info, void *context) {
    struct sigaction standard = {.sa_handler = SIG_DFL};
    (void)context;
    session_save_at_signal(signal);
    set_action(signal, &standard, NULL);
    if (!is_fault(signal, info))
        syscall(SYS_tgkill, syscall(SYS_getpid), syscall(SYS_gettid), signal);
}

/* ---- default actions */

static bool ends_process(int signal) {
    static const int others[] = {SIGCHLD, SIGCONT, SIGURG, SIGWINCH, SIGKILL, SIGSTOP, SIGTSTP, SIGTTIN, SIGTTOU};
    for (size_t i = 0; i < sizeof others / sizeof *others; i++)
        if (signal == others[i])
            return false;
    return signal < __SIGRTMIN || signal >= SIGRTMIN; /* those between are the C library's own */
}

/* Lets the recording be saved at a signal whose action is the default. */
static void guard(int signal) {
    struct sigaction action = {.sa_sigaction = save_and_end, .sa_flags = SA_SIGINFO | SA_ONSTACK};
    sigfillset(&action.sa_mask);
    if (is_guarding && ends_process(signal))
        set_action(signal, &action, NULL);
}

void actions_begin(void) {
    static char stack[STACK_BYTES] __attribute__((aligned(64))); /* for a thread whose own stack is full */
    stack_t alternate = {.ss_sp = stack, .ss_size = sizeof stack}, old;
    if (is_guarding)
        return;
    is_guarding = true;
    if (sigaltstack(NULL, &old) == 0 && old.ss_flags & SS_DISABLE)
        sigaltstack(&alternate, NULL);
    for (int signal = 1; signal < NSIG; signal++) {
        struct sigaction action;
        if (set_action(signal, NULL, &action) != 0 || action.sa_handler != SIG_DFL)
            continue;
        asked[signal] = action;
        guard(signal);
    }
}

void action_end_process(int signal) {
    struct sigaction standard = {.sa_handler = SIG_DFL};
    sigset_t others;
    session_save_at_signal(signal);
    set_action(signal, &standard, NULL);
    syscall(SYS_tgkill, syscall(SYS_getpid), syscall(SYS_gettid), signal);
    sigfillset(&others);
    sigdelset(&others, signal);
    for (;;)
        sigsuspend(&others);
}

/* ---- the functions that are interposed */

static bool is_handler(plain_handler *handler) {
    return handler != SIG_DFL && handler != SIG_IGN && handler != SIG_HOLD && handler != SIG_ERR;
}

static bool is_own(const struct sigaction *action) {
    return action->sa_handler == run_plain_handler || action->sa_sigaction == run_handler ||
           action->sa_sigaction == save_and_end;
}

/* Tells the program what it asked for. A handler may have got other flags since, by siginterrupt. */
static void translate(struct sigaction *action, const struct sigaction *before) {
    if (action->sa_sigaction == save_and_end)
        *action = *before;
    else if (is_own(action))
        action->sa_handler = before->sa_handler;
}

EXPORTED int sigaction(int signal, const struct sigaction *action, struct sigaction *old) {
    sigset_t all, mask;
    struct sigaction was, wanted, given;
    if (signal < 1 || signal >= NSIG)
        return set_action(signal, action, old);
    sigfillset(&all);
    sigprocmask(SIG_SETMASK, &all, &mask); /* no handler runs while `asked` is not what the system has */
    struct sigaction before = asked[signal];
    if (action)
        wanted = given = *action;
    if (action && is_handler(action->sa_handler)) {
        if (action->sa_flags & SA_SIGINFO)
            given.sa_sigaction = run_handler;
        else
            given.sa_handler = run_plain_handler;
    }
    int result = set_action(signal, action ? &given : NULL, &was);
    if (result == 0) {
        translate(&was, &before);
        if (action)
            asked[signal] = wanted;
        if (action && wanted.sa_handler == SIG_DFL)
            guard(signal);
        if (old)
            *old = was;
    }
    int error = errno;
    sigprocmask(SIG_SETMASK, &mask, NULL);
    errno = error;
    return result;
}

/* Does what one of the older functions does, by that of the C library. */
static plain_handler *set_by(const char *name, int signal, plain_handler *handler) {
    struct sigaction now;
    set_handler *real = (set_handler *)dlsym(RTLD_NEXT, name);
    if (!real) {
        errno = ENOSYS;
        return SIG_ERR;
    }
    if (signal < 1 || signal >= NSIG || handler == SIG_HOLD)
        return real(signal, handler);
    struct sigaction before = asked[signal];
    if (is_handler(handler))
        asked[signal] = (struct sigaction){.sa_handler = handler};
    plain_handler *old = real(signal, is_handler(handler) ? run_plain_handler : handler);
    if (old == SIG_ERR) {
        asked[signal] = before;
        return SIG_ERR;
    }
    set_action(signal, NULL, &now); /* for the flags */
    now.sa_handler = handler;
    asked[signal] = now;
    if (handler == SIG_DFL)
        guard(signal);
    struct sigaction was = {.sa_handler = old};
    return is_own(&was) ? before.sa_handler : old;
}

#define INTERPOSED(name)                                                                                              \
    EXPORTED plain_handler *name(int signal, plain_handler *handler) {                                                \
        return set_by(#name, signal, handler);                                                                        \
    }

INTERPOSED(signal)
INTERPOSED(bsd_signal)
INTERPOSED(ssignal)
INTERPOSED(sysv_signal)
INTERPOSED(__sysv_signal)
INTERPOSED(sigset)
