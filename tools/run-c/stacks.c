/* Stacks and switches between C threads. */
#define _GNU_SOURCE
#include "refusal.h"
#include "session.h"
#include "threads.h"

#include <errno.h>
#include <stdlib.h>
#include <sys/mman.h>

enum {
    LEAST_STACK = 256 * 1024,
    GUARD = 4096
}; /* the library runs on the stacks too; below each is a page that faults */

static char *left_stack;       /* the stack of a thread that ended on it; it can go once another stack is in use */
static size_t left_stack_size; /* its size */

static void give_back_left_stack(void) {
    if (left_stack)
        munmap(left_stack, left_stack_size);
    left_stack = NULL;
}

static void run_thread(void) {
    give_back_left_stack();
    struct pth_st *thread = current_thread;
    void *value = thread->function(thread->argument);
    thread->site = (struct call_site){"the end of its function", NULL};
    thread_exit(value);
}

static void begin_thread(struct pth_st *thread) {
    size_t size = thread->stack_size < LEAST_STACK ? LEAST_STACK : thread->stack_size;
    size = ((size + GUARD - 1) & ~(size_t)(GUARD - 1)) + GUARD;
    char *stack = mmap(NULL, size, PROT_READ | PROT_WRITE, MAP_PRIVATE | MAP_ANONYMOUS | MAP_NORESERVE, -1, 0);
    if (stack == MAP_FAILED || mprotect(stack, GUARD, PROT_NONE) != 0)
        refuse("no memory for a stack of %zu bytes", size);
    thread->has_begun = true;
    thread->stack = stack;
    thread->stack_size = size;
    getcontext(&thread->context);
    thread->context.uc_stack.ss_sp = stack + GUARD;
    thread->context.uc_stack.ss_size = size - GUARD;
    thread->context.uc_link = NULL;
    makecontext(&thread->context, run_thread, 0);
}

/* Leaves the stack of a thread that has ended. The stack is still in use, until the switch. */
static void leave_stack(struct pth_st *thread) {
    give_back_left_stack();
    left_stack = thread->stack;
    left_stack_size = thread->stack_size;
    thread->stack = NULL;
}

void thread_switch(void) {
    struct pth_st *from = current_thread, *to = running_thread;
    if (session.ending == MAIN_ENDED)
        session_exit();
    if (to == from && !from->has_ended)
        return;
    if (from->has_ended)
        leave_stack(from);
    current_thread = to;
    if (!to->has_begun)
        begin_thread(to);
    int saved = errno;
    swapcontext(&from->context, &to->context);
    errno = saved;
    give_back_left_stack();
}
