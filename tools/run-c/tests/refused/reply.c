/* A thread replies to a message after it has got another message. A script can reply only to the last message. */
#include <pth.h>
#include <stdio.h>

int main(void) {
    static pth_message_t first, second;
    pth_init();
    pth_yield(NULL);
    puts("before");
    pth_msgport_t port = pth_msgport_create("port");
    first.m_replyport = second.m_replyport = pth_msgport_create("replies");
    pth_msgport_put(port, &first);
    pth_msgport_put(port, &second);
    pth_message_t *message = pth_msgport_get(port);
    pth_msgport_get(port);
    pth_msgport_reply(message); /* refused */
    puts("after");
    return 0;
}
