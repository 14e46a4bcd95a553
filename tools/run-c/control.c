/* Questions on the library: pth_ctrl and pth_version. */
#define _GNU_SOURCE
#include "objects.h"
#include "refusal.h"
#include "threads.h"

#include <stdarg.h>

long pth_version(void) {
    return PTH_VERSION_HEX;
}

static long count_threads(unsigned long query) {
    static const struct {
        unsigned long bit;
        const char *word;
    } states[] = {
        {PTH_CTRL_GETTHREADS_NEW, "new"},
        {PTH_CTRL_GETTHREADS_READY, "ready"},
        {PTH_CTRL_GETTHREADS_RUNNING, "running"},
        {PTH_CTRL_GETTHREADS_WAITING, "waiting"},
        {PTH_CTRL_GETTHREADS_SUSPENDED, "suspended"},
        {PTH_CTRL_GETTHREADS_DEAD, "dead"},
    };
    if ((query & PTH_CTRL_GETTHREADS) == PTH_CTRL_GETTHREADS)
        return call("ctrl threads");
    long sum = 0;
    for (size_t i = 0; i < sizeof states / sizeof *states; i++)
        if (query & states[i].bit)
            sum += call("ctrl %s", states[i].word);
    return sum;
}

static long get_name(pth_t thread) {
    call("ctrl name %d", thread->number);
    return call_error ? 0 : (long)name_of_program(call_answer());
}

__attribute__((noreturn)) static void refuse_query(unsigned long query) {
    if (query & PTH_CTRL_GETAVLOAD)
        refuse("PTH_CTRL_GETAVLOAD: a script has no average load");
    if (query & PTH_CTRL_DUMPSTATE)
        refuse("PTH_CTRL_DUMPSTATE: a script has no call that prints the state of the library");
    refuse("a script has no query %#lx", query);
}

long pth_ctrl(unsigned long query, ...) {
    CALL_ENTER();
    long answer;
    va_list list;
    va_start(list, query);
    if (query & PTH_CTRL_GETTHREADS)
        answer = count_threads(query);
    else if (query & PTH_CTRL_GETAVLOAD)
        refuse_query(query);
    else if (query & PTH_CTRL_GETPRIO)
        answer = call("ctrl prio %d", va_arg(list, pth_t)->number);
    else if (query & PTH_CTRL_GETNAME)
        answer = get_name(va_arg(list, pth_t));
    else if (query & PTH_CTRL_FAVOURNEW && !(query & PTH_CTRL_DUMPSTATE))
        answer = call("ctrl favournew %d", va_arg(list, int));
    else
        refuse_query(query);
    va_end(list);
    return answer;
}
