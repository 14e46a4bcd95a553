/* Attribute objects and cancel states. */
#define _GNU_SOURCE
#include "attributes.h"
#include "memory.h"
#include "objects.h"
#include "refusal.h"

#include <errno.h>
#include <stdarg.h>
#include <stdlib.h>

/* ---- cancel states: 1 enabled and deferred, 2 disabled and deferred, 3 enabled and asynchronous, 4 disabled and
   asynchronous */

int cancel_state_number(unsigned flags) {
    int number = flags & PTH_CANCEL_DISABLE ? 2 : 1;
    return flags & PTH_CANCEL_ASYNCHRONOUS ? number + 2 : number;
}

unsigned cancel_state_flags(long number) {
    return (number == 1 || number == 3 ? PTH_CANCEL_ENABLE : PTH_CANCEL_DISABLE) |
           (number >= 3 ? PTH_CANCEL_ASYNCHRONOUS : PTH_CANCEL_DEFERRED);
}

/* ---- objects */

static pth_attr_t make_object(long number, pth_t bound) {
    if (call_error)
        return NULL;
    pth_attr_t attributes = memory_take(sizeof *attributes);
    attributes->number = number;
    attributes->bound = bound;
    return attributes;
}

pth_attr_t pth_attr_new(void) {
    CALL_ENTER();
    long number = call("attr_new");
    return make_object(number, NULL);
}

pth_attr_t pth_attr_of(pth_t thread) {
    CALL_ENTER();
    if (!thread) {
        errno = EINVAL;
        return NULL;
    }
    long number = call("attr_of %d", thread->number);
    return make_object(number, thread);
}

static int refuse_null(void) {
    errno = EINVAL;
    return FALSE;
}

int pth_attr_init(pth_attr_t attributes) {
    CALL_ENTER();
    if (!attributes)
        return refuse_null();
    call("attr_init %d", attributes->number);
    if (!call_error)
        attributes->stack_size = 0;
    return call_truth();
}

int pth_attr_destroy(pth_attr_t attributes) {
    CALL_ENTER();
    if (!attributes)
        return refuse_null();
    call("attr_destroy %d", attributes->number);
    return call_truth();
}

/* ---- fields */

int pth_attr_set(pth_attr_t attributes, int field, ...) {
    CALL_ENTER();
    if (!attributes)
        return refuse_null();
    int number = attributes->number;
    va_list list;
    va_start(list, field);
    switch (field) {
    case PTH_ATTR_PRIO:
        call("attr_set %d prio %d", number, va_arg(list, int));
        break;
    case PTH_ATTR_NAME:
        call("attr_set %d name %s", number, name_of_script(va_arg(list, char *)));
        break;
    case PTH_ATTR_JOINABLE:
        call("attr_set %d joinable %d", number, va_arg(list, int) != 0);
        break;
    case PTH_ATTR_CANCEL_STATE:
        call("attr_set %d cancel %d", number, cancel_state_number(va_arg(list, unsigned)));
        break;
    case PTH_ATTR_DISPATCHES:
        call("attr_set %d dispatches %d", number, va_arg(list, int));
        break;
    case PTH_ATTR_STACK_SIZE: /* of no concern to the machine */
        attributes->stack_size = va_arg(list, unsigned);
        call_error = 0;
        break;
    default:
        refuse("field %d of an attribute object", field);
    }
    va_end(list);
    return call_truth();
}

/* Returns a field that is a number. */
static long get_number(pth_attr_t attributes, const char *field) {
    return call("attr_get %d %s", attributes->number, field);
}

static pth_state_t state_of_number(long number) {
    static const pth_state_t states[] = {PTH_STATE_NEW, PTH_STATE_READY, PTH_STATE_READY, PTH_STATE_WAITING,
                                         PTH_STATE_DEAD};
    if (number < 0 || number > 4)
        fault("state %ld of a thread", number);
    return states[number];
}

/* Reads a field that the machine does not have. Returns FALSE if the object is not bound. */
static int get_function(pth_attr_t attributes, int field, va_list *list) {
    if (!attributes->bound) {
        errno = EACCES;
        return FALSE;
    }
    if (field == PTH_ATTR_START_FUNC)
        *va_arg(*list, void *(**)(void *)) = attributes->bound->function;
    else
        *va_arg(*list, void **) = attributes->bound->argument;
    return TRUE;
}

/* Reads a field that is a number of the machine. Returns false if the field is another one. */
static bool get_machine_field(pth_attr_t attributes, int field, va_list *list) {
    static const struct {
        int field;
        const char *word;
    } numbers[] = {
        {PTH_ATTR_PRIO, "prio"},
        {PTH_ATTR_JOINABLE, "joinable"},
        {PTH_ATTR_DISPATCHES, "dispatches"},
        {PTH_ATTR_BOUND, "bound"},
    };
    for (size_t i = 0; i < sizeof numbers / sizeof *numbers; i++)
        if (numbers[i].field == field) {
            long value = get_number(attributes, numbers[i].word);
            if (!call_error)
                *va_arg(*list, int *) = (int)value;
            return true;
        }
    return false;
}

int pth_attr_get(pth_attr_t attributes, int field, ...) {
    CALL_ENTER();
    if (!attributes)
        return refuse_null();
    long value;
    int truth = TRUE;
    va_list list;
    va_start(list, field);
    call_error = 0;
    switch (field) {
    case PTH_ATTR_NAME:
        get_number(attributes, "name");
        if (!call_error)
            *va_arg(list, const char **) = name_of_program(call_answer());
        break;
    case PTH_ATTR_CANCEL_STATE:
        value = get_number(attributes, "cancel");
        if (!call_error)
            *va_arg(list, unsigned *) = cancel_state_flags(value);
        break;
    case PTH_ATTR_STATE:
        value = get_number(attributes, "state");
        if (!call_error)
            *va_arg(list, pth_state_t *) = state_of_number(value);
        break;
    case PTH_ATTR_STACK_SIZE:
        *va_arg(list, unsigned *) = attributes->bound ? attributes->bound->stack_size : attributes->stack_size;
        break;
    case PTH_ATTR_START_FUNC:
    case PTH_ATTR_START_ARG:
        truth = get_function(attributes, field, &list);
        break;
    default:
        if (!get_machine_field(attributes, field, &list))
            refuse("field %d of an attribute object", field);
    }
    va_end(list);
    return call_error ? FALSE : truth;
}
