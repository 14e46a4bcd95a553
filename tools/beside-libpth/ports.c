/* Calls of message ports. */
#include "play_on_libpth.h"

static int port_number(pth_msgport_t port) {
    for (int i = 1; i <= port_count; i++)
        if (port != NULL && ports[i].port == port) return i;
    return 0;
}

struct answer port_create(struct call *c) {
    pth_msgport_t port = pth_msgport_create(is(c->l->word[1], "-") ? NULL : c->l->word[1]);
    if (port == NULL) return refusal(errno);
    int n = next_number(&port_count, c->t);
    ports[n].port = port;
    return number(n);
}

/* NULL of pth_msgport_find and of pth_msgport_get comes without errno: it is told as ENOENT. */
struct answer port_find(struct call *c) {
    int n = port_number(pth_msgport_find(c->l->word[1]));
    return n != 0 ? number(n) : refusal(ENOENT);
}

struct answer port_pending(struct call *c) {
    struct port *p = known_port(c->x[1]);
    return p == NULL ? refusal(EINVAL) : count(pth_msgport_pending(p->port));
}

struct answer port_put(struct call *c) { return put(c->t, c->x[1], c->x[2], c->x[3]); }

struct answer port_get(struct call *c) {
    static char text[80];
    struct port *p = known_port(c->x[1]);
    if (p == NULL) return refusal(EINVAL);
    struct message *m = (struct message *)pth_msgport_get(p->port);
    if (m == NULL) return refusal(ENOENT);
    m->at = 0;
    m->is_held = m->reply_to != 0;
    c->t->message = m->number;
    snprintf(text, sizeof text, "msg %ld value %ld", m->number, m->value);
    return words(m->value, text);
}

struct answer reply(struct call *c) {
    struct message *m = messages[c->t->message];
    if (m == NULL || !m->is_held || known_port(m->reply_to) == NULL) return refusal(ENOENT);
    m->is_held = 0;
    m->value = c->x[1];
    m->at = m->reply_to;
    struct answer a = truth(pth_msgport_reply(&m->message));
    m->message.m_replyport = NULL;
    m->reply_to = 0;
    return a;
}

/* pth_msgport_destroy replies to what is queued. A reply to a port that is gone would read a freed block, and one to this port would
 * be queued here again, without end. */
static void prepare_messages(long p) {
    for (int i = 1; i <= message_count; i++) {
        struct message *m = messages[i];
        if (m->at != p) continue;
        if (m->reply_to == p || known_port(m->reply_to) == NULL) m->message.m_replyport = NULL;
        m->at = m->message.m_replyport != NULL ? m->reply_to : 0;
        m->reply_to = 0;
    }
}

struct answer port_destroy(struct call *c) {
    struct port *p = known_port(c->x[1]);
    if (p == NULL) return refusal(EINVAL);
    for (int i = 1; i <= event_count; i++)
        if (events[i]->is_live && events[i]->port == c->x[1] && is_claimed(events[i]))
            give_up(c->t->at, "a port is waited for as it is destroyed: in C its block is freed");
    prepare_messages(c->x[1]);
    pth_msgport_destroy(p->port);
    p->port = NULL;
    return number(1);
}
