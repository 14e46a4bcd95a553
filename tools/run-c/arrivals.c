/* Arrivals: what comes from outside is added to the script. */
#define _GNU_SOURCE
#include "arrivals.h"
#include "calls.h"
#include "descriptors.h"
#include "handlers.h"
#include "input.h"
#include "notes.h"
#include "output.h"
#include "refusal.h"
#include "session.h"
#include "threads.h"

#include <errno.h>
#include <fcntl.h>
#include <poll.h>
#include <stdio.h>
#include <string.h>
#include <sys/socket.h>
#include <sys/syscall.h>
#include <time.h>
#include <unistd.h>

static bool is_ready(int system, short events) {
    struct pollfd poll = {system, events, 0};
    return syscall(SYS_poll, &poll, 1L, 0) > 0 && poll.revents;
}

/* ---- input */

/* Whether the machine is to learn of input of a descriptor when a thread asks for it. */
static bool takes_input(const struct descriptor *descriptor) {
    return !descriptor->is_closed && !descriptor->is_at_end && descriptor->system >= 0 && descriptor->unread == 0;
}

static void add_bytes(int number, const unsigned char *bytes, size_t length, long long moment, bool is_tentative) {
    struct descriptor *descriptor = &descriptors[number];
    char what[2 * PART_BYTES + 8] = "in ", *end = what + 3;
    for (size_t i = 0; i < length; i++)
        end += sprintf(end, "%02x", bytes[i]);
    script_add_arrival(moment, number, what, is_tentative);
    if (descriptor->kind == REGULAR && descriptor->unread == 0)
        descriptor->place_of_unread = syscall(SYS_lseek, descriptor->system, 0L, SEEK_CUR);
    descriptor->unread += length;
    descriptor->unread_since = moment;
}

/* Adds that no more input comes, because it is at its end or with an errno. */
static void add_end(int number, int error, long long moment, bool is_tentative) {
    struct descriptor *descriptor = &descriptors[number];
    if (error && descriptor->kind == DATAGRAMS)
        refuse("descriptor %d fails while a thread waits for a datagram: %s", descriptor->system, strerror(error));
    script_add_arrival(moment, number, error ? "err" : "eof", is_tentative);
    descriptor->is_at_end = true;
    descriptor->has_failed = error != 0;
    descriptor->error = error;
}

static void add_connection(int number, long long moment, bool is_tentative) {
    char what[32];
    snprintf(what, sizeof what, "conn %d", descriptor_add(-1));
    script_add_arrival(moment, number, what, is_tentative);
    descriptors[number].unread++;
}

/* Adds input for a thread that waits, or that asks whether there is any. Returns false if there is none. */
static bool bring_input(int number, long long moment, bool is_tentative) {
    struct descriptor *descriptor = &descriptors[number];
    if (!takes_input(descriptor) || !is_ready(descriptor->system, POLLIN))
        return false;
    if (descriptor->kind == LISTENER) {
        add_connection(number, moment, is_tentative);
        return true;
    }
    unsigned char bytes[PART_BYTES];
    ssize_t length = input_look(number, bytes, input_first_look(number));
    if (length < 0 && (errno == EAGAIN || errno == EINTR))
        return false;
    if (length > 0)
        add_bytes(number, bytes, length, moment, is_tentative);
    else
        add_end(number, length < 0 ? errno : 0, moment, is_tentative);
    return true;
}

/* Adds an exceptional condition, such as urgent data. No script says that it is over. */
static bool bring_urgent(int number, long long moment, bool is_tentative) {
    struct descriptor *descriptor = &descriptors[number];
    if (!descriptor->asks_for_urgent || descriptor->is_closed || descriptor->system < 0)
        return false;
    bool is_urgent = is_ready(descriptor->system, POLLPRI);
    if (descriptor->has_urgent && !is_urgent)
        refuse("the exceptional condition of descriptor %d is over, and a script cannot say that", descriptor->system);
    if (descriptor->has_urgent || !is_urgent)
        return false;
    script_add_arrival(moment, number, "exc", is_tentative);
    descriptor->has_urgent = true;
    return true;
}

/* ---- room */

/* Whether the machine is to learn of room, or of how a connect went. */
static bool takes_room(const struct descriptor *descriptor) {
    bool is_over = descriptor->is_closed || descriptor->has_failed || descriptor->was_refused;
    return !is_over && descriptor->system >= 0 && (descriptor->is_connecting || descriptor->room < PART_BYTES);
}

static void bring_connect(int number, long long moment, bool is_tentative) {
    struct descriptor *descriptor = &descriptors[number];
    int error = 0;
    socklen_t size = sizeof error;
    syscall(SYS_getsockopt, descriptor->system, SOL_SOCKET, SO_ERROR, &error, &size);
    /* a descriptor on which calls do not wait has to be writeable then, so that select shows it */
    bool is_refused = error == ECONNREFUSED && !descriptor->is_nonblocking;
    script_add_arrival(moment, number, error == 0 ? "up" : is_refused ? "refuse" : "err", is_tentative);
    descriptor->is_connecting = false;
    descriptor->was_refused = is_refused;
    descriptor->has_failed = error != 0 && !is_refused;
    descriptor->error = error;
}

static bool bring_room(int number, long long moment, bool is_tentative) {
    struct descriptor *descriptor = &descriptors[number];
    if (!takes_room(descriptor))
        return false;
    bool ends_connect = descriptor->is_connecting && is_ready(descriptor->system, POLLOUT);
    if (ends_connect)
        bring_connect(number, moment, is_tentative);
    if (descriptor->is_connecting || !takes_room(descriptor) || !output_has_room(number))
        return ends_connect;
    char what[32];
    snprintf(what, sizeof what, "room %ld", PART_BYTES - descriptor->room);
    script_add_arrival(moment, number, what, is_tentative);
    descriptor->room = PART_BYTES;
    return true;
}

/* ---- for the current thread */

/* Whether input that comes now would have been there for a call of the same moment that has missed it. */
static bool has_missed_input(int number) {
    return descriptors[number].missed_at == session.now || descriptor_is_awaited(number, false);
}

static bool has_missed_room(int number) {
    return descriptors[number].cramped_at == session.now || descriptor_is_awaited(number, true);
}

static long long moment_of_input(int number) {
    return session.now + has_missed_input(number);
}

/* Whether there is input that the machine does not know of. */
static bool has_news(const struct descriptor *descriptor) {
    bool is_urgent = descriptor->asks_for_urgent && !descriptor->has_urgent && is_ready(descriptor->system, POLLPRI);
    return is_urgent || (takes_input(descriptor) && is_ready(descriptor->system, POLLIN));
}

void arrivals_let_time_pass(int number, bool is_for_input, bool is_for_room) {
    const struct descriptor *descriptor = &descriptors[number];
    bool passes = false;
    if (handler_runs() || descriptor->is_closed || descriptor->system < 0)
        return;
    if (session_is_again())
        passes = note_take(number, descriptor->calls, "later") != NULL;
    else if (is_for_input && has_missed_input(number) && has_news(descriptor))
        passes = true;
    else if (is_for_room && has_missed_room(number) && takes_room(descriptor) && output_has_room(number))
        passes = true;
    if (!passes)
        return;
    if (!session_is_again())
        note_add(number, descriptor->calls, "later", 0);
    script_add_comment(current_thread->body, "time for what has come to a descriptor in this turn:");
    call("usleep 1");
}

void arrivals_bring_input(int number) {
    if (session_is_again())
        return;
    bring_input(number, moment_of_input(number), true);
    bring_urgent(number, moment_of_input(number), true);
}

/* Refuses the run if a descriptor has input again after its end, as a terminal or a named pipe may. Returns the errno
   with which the system refuses the read, or 0. */
static int check_end(int number) {
    const struct descriptor *descriptor = &descriptors[number];
    unsigned char byte;
    bool goes_on = false;
    ssize_t length = 0;
    if (descriptor->has_failed || descriptor->unread)
        return 0;
    if (descriptor->kind == PIPE || descriptor->kind == REGULAR || descriptor->kind == SOCKET)
        length = input_look(number, &byte, 1);
    else if (descriptor->kind == TERMINAL && isatty(descriptor->system))
        goes_on = !is_ready(descriptor->system, 0);
    if (length < 0 && errno != EAGAIN)
        return errno;
    if (length != 0 || goes_on)
        refuse("descriptor %d is read on after its end", descriptor->system);
    return 0;
}

int arrivals_bring_bytes(int number, size_t size) {
    struct descriptor *descriptor = &descriptors[number];
    unsigned char bytes[PART_BYTES];
    if (session_is_again() || descriptor->is_closed || descriptor->system < 0)
        return 0;
    if (descriptor->is_at_end)
        return check_end(number);
    if (descriptor->kind == SIGNALS || descriptor->unread >= (long)size)
        return 0;
    ssize_t length = input_look(number, bytes, size - descriptor->unread);
    descriptor->is_at_file_end = descriptor->kind == REGULAR && length == 0 && descriptor->unread == 0;
    if (length > 0)
        add_bytes(number, bytes, length, moment_of_input(number), true);
    else if (length == 0 && descriptor->kind != REGULAR)
        add_end(number, 0, moment_of_input(number), true);
    else if (length < 0 && descriptor->unread == 0 && errno != EAGAIN && errno != EINTR)
        return errno;
    return 0;
}

/* Returns the errno with which the system refuses to accept. The descriptor is no listener. */
static int refused_accept(int system) {
    int connection = syscall(SYS_accept4, system, NULL, NULL, 0);
    if (connection >= 0)
        fault("descriptor %d listens", system);
    return errno;
}

int arrivals_bring_connection(int number) {
    struct descriptor *descriptor = &descriptors[number];
    int listens = 0;
    socklen_t size = sizeof listens;
    if (session_is_again())
        return 0;
    syscall(SYS_getsockopt, descriptor->system, SOL_SOCKET, SO_ACCEPTCONN, &listens, &size);
    if (!listens)
        return refused_accept(descriptor->system);
    descriptor->kind = LISTENER; /* which it may have become after its first call */
    bring_input(number, moment_of_input(number), true);
    return 0;
}

void arrivals_bring_room(int number) {
    if (!session_is_again())
        bring_room(number, session.now + has_missed_room(number), true);
}

/* ---- for threads that wait */

/* Collects the descriptors for which threads wait. */
static void collect_needs(uint64_t *reads, uint64_t *writes) {
    *reads = *writes = 0;
    for (int i = 1; i <= thread_count(); i++) {
        const struct pth_st *thread = thread_of_number(i);
        if (thread->has_pending_call) {
            *reads |= thread->reads;
            *writes |= thread->writes;
        }
    }
}

void arrivals_look(void) {
    uint64_t reads, writes;
    output_flush();
    if (session_is_again())
        return;
    collect_needs(&reads, &writes);
    for (int number = 0; number < DESCRIPTORS; number++) {
        if (reads >> number & 1) {
            bring_input(number, session.now + 1, false);
            bring_urgent(number, session.now + 1, false);
        }
        if (writes >> number & 1)
            bring_room(number, session.now + 1, false);
    }
}

/* Lists what the process waits for. Returns how many descriptors that are. */
static int list_polls(uint64_t reads, uint64_t writes, struct pollfd *polls, int *numbers) {
    int count = 0;
    for (int number = 0; number < DESCRIPTORS; number++) {
        const struct descriptor *descriptor = &descriptors[number];
        bool is_read = reads >> number & 1, is_written = writes >> number & 1;
        short events = 0;
        if (is_read && takes_input(descriptor))
            events |= POLLIN;
        if (is_read && descriptor->asks_for_urgent && !descriptor->has_urgent && !descriptor->is_closed)
            events |= POLLPRI;
        if ((is_written && takes_room(descriptor)) || output_is_kept(number))
            events |= POLLOUT;
        if (!events)
            continue;
        polls[count] = (struct pollfd){descriptor->system, events, 0};
        numbers[count++] = number;
    }
    return count;
}

/* Waits once, until a moment or without end. Returns 0 at the moment, or more if a descriptor may be ready. */
static int wait_once(struct pollfd *polls, int count, long long begun, long long until) {
    long long left = until - session.now - (session_clock() - begun);
    if (left < 0)
        left = 0;
    struct timespec length = {left / 1000000, left % 1000000 * 1000};
    int ready = syscall(SYS_ppoll, polls, (long)count, until < 0 ? NULL : &length, NULL, 0L);
    if (ready < 0 && errno != EINTR)
        fault("ppoll: %s", strerror(errno));
    return ready < 0 ? 1 : ready; /* after a signal handler of the program, the wait goes on */
}

static bool bring_ready(uint64_t reads, uint64_t writes, const struct pollfd *polls, const int *numbers, int count,
                        long long moment) {
    bool has_come = false;
    for (int i = 0; i < count; i++) {
        if (!polls[i].revents)
            continue;
        if (reads >> numbers[i] & 1) {
            has_come |= bring_input(numbers[i], moment, false);
            has_come |= bring_urgent(numbers[i], moment, false);
        }
        if (writes >> numbers[i] & 1)
            has_come |= bring_room(numbers[i], moment, false);
    }
    return has_come;
}

bool arrivals_wait(long long until) {
    uint64_t reads, writes;
    if (session_is_again())
        return false;
    collect_needs(&reads, &writes);
    if (!(reads | writes) && (until < 0 || options.skips_sleeps))
        return false;
    long long begun = session_clock();
    for (;;) {
        struct pollfd polls[DESCRIPTORS];
        int numbers[DESCRIPTORS];
        output_flush();
        int count = list_polls(reads, writes, polls, numbers);
        if (count == 0 && until < 0)
            return false;
        if (wait_once(polls, count, begun, until) == 0)
            return false;
        long long moment = session.now + (session_clock() - begun);
        if (moment <= session.now)
            moment = session.now + 1;
        if (until >= 0 && moment > until)
            moment = until;
        if (bring_ready(reads, writes, polls, numbers, count, moment))
            return true;
        if (moment == until)
            return false;
    }
}

void arrivals_wait_plainly(int number) {
    const struct descriptor *descriptor = &descriptors[number];
    if (session_is_again() || syscall(SYS_fcntl, descriptor->system, F_GETFL) & O_NONBLOCK)
        return;
    while (takes_input(descriptor)) {
        struct pollfd polls[DESCRIPTORS + 1];
        int numbers[DESCRIPTORS];
        output_flush();
        int count = list_polls(0, 0, polls, numbers);
        polls[count] = (struct pollfd){descriptor->system, POLLIN, 0};
        if (syscall(SYS_ppoll, polls, (long)count + 1, NULL, NULL, 0L) > 0 && polls[count].revents)
            return;
    }
}
