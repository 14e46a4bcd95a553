/* Signals that a thread waits for. They come by a descriptor of their own. */
#define _GNU_SOURCE
#include "arrivals.h"
#include "descriptors.h"
#include "events.h"
#include "refusal.h"
#include "session.h"
#include "signals.h"

#include <errno.h>
#include <stdio.h>
#include <string.h>
#include <sys/signalfd.h>

static bool are_equal(const sigset_t *one, const sigset_t *other) {
    for (int signal = 1; signal < NSIG; signal++)
        if (sigismember(one, signal) != sigismember(other, signal))
            return false;
    return true;
}

/* Returns a file by which the signals of a set come. Later sessions use it again. */
static int file_of_signals(const sigset_t *set) {
    static struct {
        sigset_t set;
        int file;
    } files[DESCRIPTORS]; /* the files of all sessions */
    static int count;     /* how many there are */
    for (int i = 0; i < count; i++)
        if (are_equal(&files[i].set, set))
            return files[i].file;
    int file = session_private_file(signalfd(-1, set, SFD_NONBLOCK | SFD_CLOEXEC));
    if (count < DESCRIPTORS) {
        files[count].set = *set;
        files[count++].file = file;
    }
    return file;
}

static bool is_taken[DESCRIPTORS]; /* the descriptors of signals that belong to an event */

void signals_begin(void) {
    memset(is_taken, 0, sizeof is_taken);
}

/* Returns the machine's number of a descriptor by which the signals of a set come: the one of all threads that wait
   for the set by pth_sigwait, or one for an event that no other event has. */
static int descriptor_of_signals(const sigset_t *set, bool is_of_event) {
    for (int number = 0; number < DESCRIPTORS; number++) {
        const struct descriptor *descriptor = &descriptors[number];
        if (descriptor->kind == SIGNALS && descriptor->is_of_event == is_of_event && !is_taken[number] &&
            are_equal(&descriptor->signals, set))
            return number;
    }
    sigprocmask(SIG_BLOCK, set, NULL);
    int number = descriptor_add(file_of_signals(set));
    script_open(number);
    descriptors[number].kind = SIGNALS;
    descriptors[number].signals = *set;
    descriptors[number].is_of_event = is_of_event;
    return number;
}

int signals_take_descriptor(const sigset_t *set) {
    int number = descriptor_of_signals(set, true);
    is_taken[number] = true;
    return number;
}

void signals_give_back(int number) {
    is_taken[number] = false;
}

static int wait_for_signal(const sigset_t *set, int *signal, pth_event_t ring) {
    unsigned received = 0;
    descriptor_clear_needs();
    int number = descriptor_of_signals(set, false);
    arrivals_bring_input(number);
    descriptor_need(1ULL << number, 0);
    events_need(ring);
    if (ring)
        call("read_ev %d 1 %d", number, ring->number);
    else
        call("read %d 1", number);
    if (call_error)
        return call_error;
    descriptors[number].unread--;
    sscanf(call_answer(), "hex:%2x", &received);
    if (signal)
        *signal = (int)received;
    return 0;
}

int pth_sigwait(const sigset_t *set, int *signal) {
    CALL_ENTER();
    return wait_for_signal(set, signal, NULL);
}

int pth_sigwait_ev(const sigset_t *set, int *signal, pth_event_t ring) {
    CALL_ENTER();
    return wait_for_signal(set, signal, ring);
}

/* A switch of threads keeps the mask of each, so the process has that of the thread that runs. */
int pth_sigmask(int how, const sigset_t *set, sigset_t *old) {
    return sigprocmask(how, set, old);
}
