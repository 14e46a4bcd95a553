/* Message ports. */
#define _GNU_SOURCE
#include "ports.h"
#include "handlers.h"
#include "memory.h"
#include "objects.h"
#include "refusal.h"

#include <errno.h>
#include <stdio.h>
#include <string.h>

enum { PORT_NUMBERS = 1 << 20 };

struct pth_msgport_st {
    int number; /* the machine's number */
};

static struct pth_msgport_st *ports[PORT_NUMBERS]; /* the ports by their numbers */
static int greatest;                               /* the greatest number */

void ports_begin(void) {
    memset(ports, 0, sizeof *ports * (greatest + 1));
    greatest = 0;
}

int port_number(pth_msgport_t port) {
    return port ? port->number : 0;
}

pth_msgport_t pth_msgport_create(const char *name) {
    CALL_ENTER();
    long number = call("port_create %s", name ? name_of_script(name) : "-");
    if (call_error)
        return NULL;
    if (number >= PORT_NUMBERS)
        refuse("more than %d message ports", PORT_NUMBERS - 1);
    pth_msgport_t port = memory_take(sizeof *port);
    port->number = greatest = number;
    return ports[number] = port;
}

void pth_msgport_destroy(pth_msgport_t port) {
    CALL_ENTER();
    call("port_destroy %d", port_number(port));
}

pth_msgport_t pth_msgport_find(const char *name) {
    CALL_ENTER();
    if (!name) {
        errno = EINVAL;
        return NULL;
    }
    long number = call("port_find %s", name_of_script(name));
    return call_error || number < 1 || number > greatest ? NULL : ports[number];
}

int pth_msgport_pending(pth_msgport_t port) {
    CALL_ENTER();
    return (int)call("port_pending %d", port_number(port));
}

int pth_msgport_put(pth_msgport_t port, pth_message_t *message) {
    CALL_ENTER();
    if (!message) {
        errno = EINVAL;
        return FALSE;
    }
    call("port_put %d %ld %d", port_number(port), value_number(message), port_number(message->m_replyport));
    return call_truth();
}

pth_message_t *pth_msgport_get(pth_msgport_t port) {
    CALL_ENTER();
    long value = 0;
    call("port_get %d", port_number(port));
    if (call_error)
        return NULL;
    sscanf(call_answer(), "msg %*d value %ld", &value);
    pth_message_t *message = value_of_number(value);
    current_thread->message = message;
    current_thread->reply_port = message->m_replyport;
    return message;
}

int pth_msgport_reply(pth_message_t *message) {
    CALL_ENTER();
    if (message != current_thread->message)
        refuse("the message is not the last one that the thread got, and no script can say which other one it is");
    if (message && message->m_replyport != current_thread->reply_port)
        refuse("the reply port of the message was changed, and in a script a message keeps the one it was put with");
    call("reply %ld", value_number(message));
    return call_truth();
}
