/* Waiting for several descriptors: select, pselect and poll. */
#define _GNU_SOURCE
#include "arrivals.h"
#include "descriptors.h"
#include "events.h"
#include "notes.h"
#include "select.h"
#include "session.h"

#include <errno.h>
#include <fcntl.h>
#include <poll.h>
#include <signal.h>
#include <stdio.h>
#include <stdlib.h>
#include <string.h>
#include <sys/syscall.h>
#include <unistd.h>

enum { SETS = 3 }; /* readable, writeable, exceptional */

/* ---- sets */

bool set_read(int limit, const fd_set *set, uint64_t *bits) {
    *bits = 0;
    for (int file = 0; set && file < limit; file++)
        if (FD_ISSET(file, set)) {
            int number = descriptor_of(file);
            if (number < 0) {
                errno = EBADF;
                return false;
            }
            *bits |= 1ULL << number;
        }
    return true;
}

void set_spell(uint64_t bits, char word[SET_BYTES]) {
    char *end = word;
    strcpy(word, "-");
    for (int number = 0; number < DESCRIPTORS; number++)
        if (bits >> number & 1)
            end += sprintf(end, "%s%d", end == word ? "" : ",", number);
}

uint64_t set_read_word(const char *word) {
    uint64_t bits = 0;
    for (const char *at = word; *at >= '0' && *at <= '9';) {
        char *end;
        bits |= 1ULL << strtol(at, &end, 10);
        at = *end == ',' ? end + 1 : end;
    }
    return bits;
}

int set_write(const char *word, fd_set *set) {
    uint64_t ready = set_read_word(word);
    int count = 0;
    for (int file = 0; set && file < FD_SETSIZE; file++) {
        if (!FD_ISSET(file, set))
            continue;
        int number = descriptor_find(file);
        if (number >= 0 && ready >> number & 1)
            count++;
        else
            FD_CLR(file, set);
    }
    return count;
}

/* ---- select */

/* Adds what has come to the members of the sets. */
static void bring(const uint64_t bits[SETS]) {
    uint64_t reads = bits[0] | bits[2], writes = bits[1];
    for (int number = 0; number < DESCRIPTORS; number++) {
        bool is_read = reads >> number & 1, is_written = writes >> number & 1;
        if (!is_read && !is_written)
            continue;
        descriptor_count_call(number);
        arrivals_let_time_pass(number, is_read, is_written);
    }
    for (int number = 0; number < DESCRIPTORS; number++) {
        if (reads >> number & 1)
            arrivals_bring_input(number);
        if (writes >> number & 1)
            arrivals_bring_room(number);
    }
}

/* Notes which members of the sets the call has found not ready. */
static void note_missed(const uint64_t bits[SETS], const uint64_t ready[SETS]) {
    uint64_t reads = (bits[0] & ~ready[0]) | (bits[2] & ~ready[2]), writes = bits[1] & ~ready[1];
    for (int number = 0; number < DESCRIPTORS; number++) {
        if (reads >> number & 1)
            descriptors[number].missed_at = session.now;
        if (writes >> number & 1)
            descriptors[number].cramped_at = session.now;
    }
}

static int select_sets(int limit, fd_set *sets[SETS], long long length, pth_event_t ring) {
    char words[SETS][SET_BYTES], answers[SETS][SET_BYTES] = {"-", "-", "-"};
    uint64_t bits[SETS], ready[SETS];
    int count = 0;
    descriptor_clear_needs();
    for (int i = 0; i < SETS; i++) {
        if (!set_read(limit, sets[i], &bits[i]))
            return -1;
        set_spell(bits[i], words[i]);
    }
    descriptor_need_urgent(bits[2]);
    bring(bits);
    descriptor_clear_needs();
    descriptor_need(bits[0], bits[1]);
    descriptor_need_urgent(bits[2]);
    events_need(ring);
    if (ring)
        call("select_ev %s %s %s %lld %d", words[0], words[1], words[2], length, ring->number);
    else
        call("select %s %s %s %lld", words[0], words[1], words[2], length);
    sscanf(call_answer(), "%*d sets %255s %255s %255s", answers[0], answers[1], answers[2]);
    for (int i = 0; i < SETS; i++)
        ready[i] = set_read_word(answers[i]);
    note_missed(bits, ready);
    if (call_error)
        return -1;
    for (int i = 0; i < SETS; i++)
        count += set_write(answers[i], sets[i]);
    return count;
}

static int select_files(int limit, fd_set *reads, fd_set *writes, fd_set *exceptions, const struct timeval *length,
                        pth_event_t ring) {
    fd_set *sets[SETS] = {reads, writes, exceptions};
    bool is_length = !length || (length->tv_sec >= 0 && length->tv_usec >= 0 && length->tv_usec < 1000000);
    if (limit < 0 || limit > FD_SETSIZE || !is_length) {
        errno = EINVAL;
        return -1;
    }
    return select_sets(limit, sets, length ? length->tv_sec * 1000000LL + length->tv_usec : -1, ring);
}

int pth_select(int limit, fd_set *reads, fd_set *writes, fd_set *exceptions, struct timeval *length) {
    CALL_ENTER();
    return select_files(limit, reads, writes, exceptions, length, NULL);
}

int pth_select_ev(int limit, fd_set *reads, fd_set *writes, fd_set *exceptions, struct timeval *length,
                  pth_event_t ring) {
    CALL_ENTER();
    return select_files(limit, reads, writes, exceptions, length, ring);
}

int pth_pselect(int limit, fd_set *reads, fd_set *writes, fd_set *exceptions, const struct timespec *length,
                const sigset_t *mask) {
    CALL_ENTER();
    sigset_t before;
    struct timeval rounded = {0, 0};
    if (length)
        rounded = (struct timeval){length->tv_sec, length->tv_nsec / 1000};
    if (mask && sigprocmask(SIG_SETMASK, mask, &before) < 0)
        return -1;
    int count = select_files(limit, reads, writes, exceptions, length ? &rounded : NULL, NULL), saved = errno;
    if (mask)
        sigprocmask(SIG_SETMASK, &before, NULL);
    errno = saved;
    return count;
}

/* ---- poll, by a select. The answers are those of libpth: POLLERR is not answered, POLLNVAL only together with
   another answer or if no descriptor is valid, and one of input, room and exceptions for each descriptor. */

static const short poll_events[SETS] = {POLLIN | POLLRDNORM, POLLOUT | POLLWRNORM | POLLWRBAND,
                                        POLLPRI | POLLRDBAND}; /* for each set */

static bool is_open(int file) {
    return file >= 0 && file < FD_SETSIZE && syscall(SYS_fcntl, file, F_GETFL) >= 0;
}

/* Writes the sets that a poll asks for. Returns the limit of their members. */
static int write_sets(const struct pollfd *polls, nfds_t count, fd_set sets[SETS]) {
    int limit = 0;
    for (int k = 0; k < SETS; k++)
        FD_ZERO(&sets[k]);
    for (nfds_t i = 0; i < count; i++)
        for (int k = 0; k < SETS && is_open(polls[i].fd); k++)
            if (polls[i].events & poll_events[k]) {
                FD_SET(polls[i].fd, &sets[k]);
                limit = polls[i].fd >= limit ? polls[i].fd + 1 : limit;
            }
    return limit;
}

/* Whether a descriptor that is readable has lost its connection. */
static bool hangs_up(int file) {
    int number = descriptor_find(file);
    struct descriptor *descriptor = &descriptors[number];
    if (session_is_again())
        return note_take(number, descriptor->calls, "hangs_up") != NULL;
    bool is_lost = descriptor->error == ESHUTDOWN || descriptor->error == ECONNRESET ||
                   descriptor->error == ECONNABORTED || descriptor->error == ENETRESET;
    if (!is_lost || descriptor->unread)
        return false;
    descriptor->error = 0; /* as libpth has asked the socket for it */
    note_add(number, descriptor->calls, "hangs_up", 0);
    return true;
}

/* Returns what is answered for a descriptor. */
static short poll_answer(const struct pollfd *poll, fd_set sets[SETS], bool was_asked) {
    if (poll->fd < 0)
        return 0;
    if (!is_open(poll->fd))
        return POLLNVAL;
    for (int k = 0; k < SETS && was_asked; k++) {
        if (!FD_ISSET(poll->fd, &sets[k]))
            continue;
        if (k == 0 && hangs_up(poll->fd))
            return POLLHUP;
        return poll->events & poll_events[k];
    }
    return 0;
}

static int poll_files(struct pollfd *polls, nfds_t count, int milliseconds, pth_event_t ring) {
    fd_set sets[SETS];
    int found = 0;
    if (!polls || count > FD_SETSIZE || milliseconds < -1) {
        errno = polls ? EINVAL : EFAULT;
        return -1;
    }
    int limit = write_sets(polls, count, sets);
    struct timeval length = {milliseconds / 1000, milliseconds % 1000 * 1000};
    if (limit) {
        int ready = select_files(limit, &sets[0], &sets[1], &sets[2], milliseconds < 0 ? NULL : &length, ring);
        if (ready <= 0)
            return ready;
    }
    for (nfds_t i = 0; i < count; i++) {
        polls[i].revents = poll_answer(&polls[i], sets, limit > 0);
        found += polls[i].revents != 0;
    }
    return found;
}

int pth_poll(struct pollfd *polls, nfds_t count, int milliseconds) {
    CALL_ENTER();
    return poll_files(polls, count, milliseconds, NULL);
}

int pth_poll_ev(struct pollfd *polls, nfds_t count, int milliseconds, pth_event_t ring) {
    CALL_ENTER();
    return poll_files(polls, count, milliseconds, ring);
}
