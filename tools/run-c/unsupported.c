/* The functions of pth.h that no call of a script can stand for. */
#define _GNU_SOURCE
#include "calls.h"
#include "refusal.h"
#include "threads.h"

#pragma GCC diagnostic ignored "-Wunused-parameter"

#define REFUSED(type, name, parameters, limit)                                                                        \
    type name parameters {                                                                                            \
        CALL_ENTER();                                                                                                 \
        refuse(limit);                                                                                                \
    }

#define NO_PROCESSES "a script has no processes"
#define NO_CONTEXTS "a script has no user contexts"
#define NO_ADDRESSES "a script has no datagrams and no addresses"
#define NO_OFFSETS "a script has no offsets in files"

REFUSED(int, pth_raise, (pth_t thread, int signal), "a script has no signals to one thread")
REFUSED(pid_t, pth_fork, (void), NO_PROCESSES)
REFUSED(int, pth_atfork_push,
        (void (*before)(void *), void (*in_parent)(void *), void (*in_child)(void *), void *argument), NO_PROCESSES)
REFUSED(int, pth_atfork_pop, (void), NO_PROCESSES)
REFUSED(pid_t, pth_waitpid, (pid_t process, int *status, int options), NO_PROCESSES)
REFUSED(int, pth_system, (const char *command), NO_PROCESSES)
REFUSED(int, pth_uctx_create, (pth_uctx_t * context), NO_CONTEXTS)
REFUSED(int, pth_uctx_make,
        (pth_uctx_t context, char *stack, size_t size, const sigset_t *mask, void (*function)(void *), void *argument,
         pth_uctx_t after),
        NO_CONTEXTS)
REFUSED(int, pth_uctx_switch, (pth_uctx_t from, pth_uctx_t to), NO_CONTEXTS)
REFUSED(int, pth_uctx_destroy, (pth_uctx_t context), NO_CONTEXTS)
REFUSED(Sfdisc_t *, pth_sfiodisc, (void), "a script has no streams of Sfio")
