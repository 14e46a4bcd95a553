/* Answers of calls. */
#include "play_on_libpth.h"

struct answer number(long value) { return (struct answer){.value = value}; }

struct answer refusal(int error) { return (struct answer){.value = -1, .error = error}; }

struct answer words(long value, const char *text) { return (struct answer){.value = value, .text = text}; }

/* Of a call that is answered TRUE, or FALSE and errno. */
struct answer truth(int is_true) {
    if (is_true) return number(1);
    return errno != 0 ? refusal(errno) : words(-1, "FALSE without errno");
}

/* Of a call that is answered a number, or -1 and errno. */
struct answer count(long n) { return n == -1 ? refusal(errno) : number(n); }

static const char *error_name(int error) {
    static const struct { int error; const char *name; } names[] = {
        {EPERM, "EPERM"}, {ENOENT, "ENOENT"}, {ESRCH, "ESRCH"}, {EINTR, "EINTR"}, {EIO, "EIO"}, {EBADF, "EBADF"},
        {EAGAIN, "EAGAIN"}, {EACCES, "EACCES"}, {EBUSY, "EBUSY"}, {EEXIST, "EEXIST"}, {EINVAL, "EINVAL"}, {EDEADLK, "EDEADLK"},
    };
    static char other[32];
    for (size_t i = 0; i < sizeof names / sizeof *names; i++)
        if (names[i].error == error) return names[i].name;
    snprintf(other, sizeof other, "errno %d", error);
    return other;
}

void tell_answer(struct thread *t, const char *what, struct answer a) {
    if (a.text != NULL) tell(t, "%s = %s", what, a.text);
    else if (a.error != 0) tell(t, "%s = %s", what, error_name(a.error));
    else tell(t, "%s = %ld", what, a.value);
}
