/* The table of descriptors, and pth_fdmode. */
#define _GNU_SOURCE
#include "descriptors.h"
#include "calls.h"
#include "handlers.h"
#include "input.h"
#include "notes.h"
#include "output.h"
#include "refusal.h"
#include "session.h"
#include "threads.h"

#include <errno.h>
#include <fcntl.h>
#include <string.h>
#include <sys/stat.h>
#include <sys/syscall.h>
#include <unistd.h>

enum { DUPLICATES = 1024 };

struct descriptor descriptors[DESCRIPTORS];
static struct {
    int system, number;
} duplicates[DUPLICATES];   /* further numbers of the system for descriptors of the machine */
static int duplicate_count; /* how many there are */

void descriptors_begin(void) {
    notes_begin();
    for (int number = 0; number < DESCRIPTORS; number++) {
        struct text output = descriptors[number].output;
        text_clear(&output);
        descriptors[number] = (struct descriptor){
            .system = -1, .output = output, .place = -1, .shutdown = -1, .missed_at = -1, .cramped_at = -1};
    }
    duplicate_count = 0;
}

void descriptor_expect(int number) {
    if (number >= 0 && number < DESCRIPTORS)
        descriptors[number].is_expected = true;
}

/* ---- numbers of the system and of the machine */

int descriptor_find(int system) {
    if (system < 0)
        return -1;
    for (int number = 0; number < DESCRIPTORS; number++)
        if (descriptors[number].is_known && !descriptors[number].is_closed && descriptors[number].system == system)
            return number;
    for (int i = 0; i < duplicate_count; i++)
        if (duplicates[i].system == system)
            return duplicates[i].number;
    return -1;
}

bool descriptors_are_in_use(void) {
    return session.is_on && session.ending == GOES_ON && session_is_here();
}

int descriptor_find_plain(int system) {
    return descriptors_are_in_use() ? descriptor_find(system) : -1;
}

static bool is_free(int number) {
    return !descriptors[number].is_known && !descriptors[number].is_expected;
}

/* Returns a free number: that of the system if possible, and those of the standard descriptors last. */
static int free_number(int system) {
    if (system >= 0 && system < DESCRIPTORS && is_free(system))
        return system;
    for (int i = 0; i < DESCRIPTORS; i++) {
        int number = (i + 3) % DESCRIPTORS;
        if (is_free(number))
            return number;
    }
    refuse("more than %d descriptors in a run: the number of one that was closed is not used again", DESCRIPTORS);
}

int descriptor_add(int system) {
    int number = free_number(system);
    descriptors[number].is_known = true;
    descriptors[number].system = system;
    return number;
}

static enum descriptor_kind kind_of_socket(int system) {
    int type = SOCK_STREAM, listens = 0;
    socklen_t size = sizeof type;
    syscall(SYS_getsockopt, system, SOL_SOCKET, SO_TYPE, &type, &size);
    size = sizeof listens;
    syscall(SYS_getsockopt, system, SOL_SOCKET, SO_ACCEPTCONN, &listens, &size);
    return type != SOCK_STREAM ? DATAGRAMS : listens ? LISTENER : SOCKET;
}

static enum descriptor_kind kind_of(int system, const struct stat *status) {
    if (S_ISSOCK(status->st_mode))
        return kind_of_socket(system);
    if (S_ISFIFO(status->st_mode))
        return PIPE;
    if (S_ISREG(status->st_mode) || S_ISBLK(status->st_mode) || S_ISDIR(status->st_mode))
        return REGULAR;
    return S_ISCHR(status->st_mode) ? TERMINAL : COUNTER;
}

/* Whether the other side of a descriptor is outside of the program, so that it is not there in a run from a recording.
   Both sides of a socket of the Unix domain may belong to the program. */
static bool is_outside(const struct descriptor *descriptor) {
    int domain = AF_UNIX;
    socklen_t size = sizeof domain;
    if (descriptor->kind == SOCKET)
        syscall(SYS_getsockopt, descriptor->system, SOL_SOCKET, SO_DOMAIN, &domain, &size);
    return descriptor->kind == DATAGRAMS || domain != AF_UNIX;
}

/* Finds out what the system's number is for. */
static void identify(int number) {
    struct descriptor *descriptor = &descriptors[number];
    struct stat status = {0};
    fstat(descriptor->system, &status);
    descriptor->device = status.st_dev;
    descriptor->inode = status.st_ino;
    descriptor->kind = kind_of(descriptor->system, &status);
    descriptor->is_outside = session_is_again() && is_outside(descriptor);
}

/* Lets the machine close a descriptor whose number the system has given to another file, which no call of close,
   fclose or dup2 has told. */
static void close_replaced(int system) {
    if (output_is_kept(descriptor_find(system)))
        refuse("descriptor %d was closed by other means than close, fclose and dup2, and output is left", system);
    if (!handler_runs())
        script_add_comment(current_thread->body, "the descriptor was closed by other means:");
    descriptor_close(system);
}

static bool is_replaced(int number, int system) {
    struct stat status;
    const struct descriptor *descriptor = &descriptors[number];
    return fstat(system, &status) != 0 || status.st_dev != descriptor->device || status.st_ino != descriptor->inode;
}

int descriptor_of(int system) {
    int number = descriptor_find(system);
    if (number >= 0 && is_replaced(number, system)) {
        close_replaced(system);
        number = -1;
    }
    if (number >= 0)
        return number;
    if (syscall(SYS_fcntl, system, F_GETFD) < 0)
        return -1;
    const struct note *note = note_take_next("opens");
    if (note && note->descriptor >= 0 && note->descriptor < DESCRIPTORS && !descriptors[note->descriptor].is_known)
        number = note->descriptor;
    else
        number = free_number(system);
    descriptors[number].is_known = true;
    descriptors[number].system = system;
    script_open(number);
    if (!session_is_again())
        note_add(number, 0, "opens", system);
    identify(number);
    return number;
}

void descriptor_assign(int number, int system) {
    if (descriptor_find(system) >= 0)
        close_replaced(system);
    descriptors[number].is_known = true;
    descriptors[number].is_expected = false;
    descriptors[number].system = system;
    identify(number);
    descriptors[number].is_outside = session_is_again();
}

void descriptor_duplicate(int system, int of) {
    int number = descriptor_find(of);
    if (descriptor_find(system) >= 0)
        close_replaced(system);
    if (number < 0)
        return;
    if (duplicate_count == DUPLICATES)
        refuse("more than %d duplicates of descriptors", DUPLICATES);
    duplicates[duplicate_count].system = system;
    duplicates[duplicate_count++].number = number;
}

/* Forgets that a number of the system is for a descriptor. Returns false if no number is left. */
static bool forget_number(int number, int system) {
    for (int i = 0; i < duplicate_count; i++) {
        if (duplicates[i].number != number)
            continue;
        if (duplicates[i].system != system && descriptors[number].system != system)
            continue;
        if (duplicates[i].system != system)
            descriptors[number].system = duplicates[i].system;
        duplicates[i] = duplicates[--duplicate_count];
        return true;
    }
    return false;
}

void descriptor_close(int system) {
    int number = descriptor_find(system);
    if (number < 0 || forget_number(number, system))
        return;
    call("close %d", number);
    descriptors[number].is_closed = true;
    output_close(number);
}

/* ---- calls */

void descriptor_clear_needs(void) {
    if (!handler_runs())
        current_thread->reads = current_thread->writes = 0;
}

void descriptor_need(uint64_t reads, uint64_t writes) {
    if (handler_runs())
        return;
    current_thread->reads |= reads;
    current_thread->writes |= writes;
}

void descriptor_need_urgent(uint64_t numbers) {
    for (int number = 0; number < DESCRIPTORS; number++)
        descriptors[number].asks_for_urgent |= numbers >> number & 1;
    descriptor_need(numbers, 0);
}

bool descriptor_is_awaited(int number, bool is_for_room) {
    for (int i = 1; i <= thread_count(); i++) {
        const struct pth_st *thread = thread_of_number(i);
        if (thread->has_pending_call && (is_for_room ? thread->writes : thread->reads) >> number & 1)
            return true;
    }
    return false;
}

int descriptor_note_error(int number, const char *word, int error) {
    int call_number = descriptors[number].calls;
    if (session_is_again()) {
        const struct note *note = note_take(number, call_number, word);
        return note ? (int)note->number : 0;
    }
    if (error)
        note_add(number, call_number, word, error);
    return error;
}

/* Returns whether calls on a descriptor do not wait, which the program may have set by fcntl, or as it opened it. */
static bool ask_mode(int number) {
    struct descriptor *descriptor = &descriptors[number];
    bool was_nonblocking = descriptor->is_nonblocking;
    if (session_is_again()) {
        const struct note *note = note_take(number, descriptor->calls, "mode");
        return note ? note->number == 2 : was_nonblocking;
    }
    if (descriptor->kind == SIGNALS || descriptor->kind == FUNCTION)
        return was_nonblocking;
    long flags = syscall(SYS_fcntl, descriptor->system, F_GETFL);
    bool is_nonblocking = descriptor->does_not_wait || flags & O_NONBLOCK;
    if (is_nonblocking != was_nonblocking)
        note_add(number, descriptor->calls, "mode", is_nonblocking ? 2 : 1);
    return is_nonblocking;
}

static void follow_mode(int number) {
    bool is_nonblocking = ask_mode(number);
    if (is_nonblocking == descriptors[number].is_nonblocking)
        return;
    if (!handler_runs())
        script_add_comment(current_thread->body, "the mode, which the program has not set by pth_fdmode:");
    call("fdmode %d %d", number, is_nonblocking ? 2 : 1);
    descriptors[number].is_nonblocking = is_nonblocking;
}

void descriptor_count_call(int number) {
    descriptors[number].calls++;
    follow_mode(number);
    input_follow(number);
}

int descriptor_begin_call(int system) {
    int number = descriptor_of(system);
    descriptor_clear_needs();
    if (number < 0)
        errno = EBADF;
    else
        descriptor_count_call(number);
    return number;
}

/* ---- the function of pth.h */

int pth_fdmode(int file, int mode) {
    CALL_ENTER();
    int number = descriptor_begin_call(file);
    if (number < 0)
        return PTH_FDMODE_ERROR;
    int wanted = mode == PTH_FDMODE_BLOCK ? 1 : mode == PTH_FDMODE_NONBLOCK ? 2 : 0;
    long old = call("fdmode %d %d", number, wanted);
    if (call_error)
        return PTH_FDMODE_ERROR;
    if (wanted) {
        long flags = syscall(SYS_fcntl, file, F_GETFL) & ~O_NONBLOCK;
        syscall(SYS_fcntl, file, F_SETFL, wanted == 2 ? flags | O_NONBLOCK : flags);
        descriptors[number].is_nonblocking = wanted == 2;
    }
    return old == 1 ? PTH_FDMODE_BLOCK : PTH_FDMODE_NONBLOCK;
}
