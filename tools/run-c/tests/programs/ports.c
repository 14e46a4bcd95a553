/* Message ports: a server that two clients find by name, replies, and a port whose messages are the tokens of a
   semaphore. */
#include <pth.h>
#include <stdio.h>

struct request {
    pth_message_t head;
    long number, square;
};

static pth_msgport_t tokens;
static int inside;

static pth_message_t *wait_for_message(pth_msgport_t port, pth_event_t event) {
    while (!pth_msgport_pending(port))
        pth_wait(event);
    return pth_msgport_get(port);
}

static void *server(void *unused) {
    (void)unused;
    pth_msgport_t port = pth_msgport_create("squares");
    pth_event_t event = pth_event(PTH_EVENT_MSG, port);
    for (int i = 0; i < 4; i++) {
        struct request *request = (struct request *)wait_for_message(port, event);
        request->square = request->number * request->number;
        pth_msgport_reply(&request->head);
    }
    pth_event_free(event, PTH_FREE_THIS);
    pth_msgport_destroy(port);
    return NULL;
}

static void *client(void *argument) {
    pth_msgport_t replies = pth_msgport_create(NULL);
    pth_event_t event = pth_event(PTH_EVENT_MSG, replies);
    for (long i = 0; i < 2; i++) {
        struct request request = {.head.m_replyport = replies, .number = (long)argument + i};
        pth_msgport_put(pth_msgport_find("squares"), &request.head);
        wait_for_message(replies, event);
        printf("the square of %ld is %ld\n", request.number, request.square);
    }
    pth_event_free(event, PTH_FREE_THIS);
    pth_msgport_destroy(replies);
    return NULL;
}

/* At most two of the three users hold a token at once. */
static void *user(void *unused) {
    pth_event_t event = pth_event(PTH_EVENT_MSG, tokens);
    pth_message_t *token = wait_for_message(tokens, event);
    printf("%d inside\n", ++inside);
    pth_yield(NULL);
    inside--;
    pth_msgport_put(tokens, token);
    pth_event_free(event, PTH_FREE_THIS);
    return unused;
}

int main(void) {
    static pth_message_t token[2];
    pth_t threads[3];
    pth_init();
    threads[0] = pth_spawn(PTH_ATTR_DEFAULT, server, NULL);
    pth_yield(NULL);
    threads[1] = pth_spawn(PTH_ATTR_DEFAULT, client, (void *)2);
    threads[2] = pth_spawn(PTH_ATTR_DEFAULT, client, (void *)10);
    for (int i = 0; i < 3; i++)
        pth_join(threads[i], NULL);
    printf("the port of the server is %s\n", pth_msgport_find("squares") ? "there" : "gone");

    tokens = pth_msgport_create("tokens");
    pth_msgport_put(tokens, &token[0]);
    pth_msgport_put(tokens, &token[1]);
    for (int i = 0; i < 3; i++)
        threads[i] = pth_spawn(PTH_ATTR_DEFAULT, user, NULL);
    for (int i = 0; i < 3; i++)
        pth_join(threads[i], NULL);
    printf("%d tokens are left\n", pth_msgport_pending(tokens));
    pth_kill();
    return 0;
}
