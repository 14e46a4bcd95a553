/* A thread replies to a message whose reply port it has changed. In a script a message keeps its reply port. */
#include <pth.h>
#include <stdio.h>

int main(void) {
    static pth_message_t message;
    pth_init();
    pth_yield(NULL);
    puts("before");
    pth_msgport_t port = pth_msgport_create("port");
    message.m_replyport = pth_msgport_create("replies");
    pth_msgport_put(port, &message);
    pth_message_t *got = pth_msgport_get(port);
    got->m_replyport = pth_msgport_create("others");
    pth_msgport_reply(got); /* refused */
    puts("after");
    return 0;
}
