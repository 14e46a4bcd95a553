/* Calls of descriptors. A script without a kernel section has none open. */
#include "play_on_libpth.h"

struct answer read_from(struct call *c) {
    static char bytes[65536];
    if (c->l->count > 3 && claim(c, c->x[3]) < 0) return refusal(errno);
    if (c->x[2] < 0 || c->x[2] > (long)sizeof bytes) return refusal(EINVAL);
    return count(pth_read_ev(descriptor(c->x[1]), bytes, c->x[2], c->l->count > 3 ? ring_of(c->x[3]) : NULL));
}

struct answer write_to(struct call *c) {
    if (c->l->count > 3 && claim(c, c->x[3]) < 0) return refusal(errno);
    const char *bytes = c->l->word[2];
    return count(pth_write_ev(descriptor(c->x[1]), bytes, strlen(bytes), c->l->count > 3 ? ring_of(c->x[3]) : NULL));
}

struct answer accept_from(struct call *c) {
    if (c->l->count > 2 && claim(c, c->x[2]) < 0) return refusal(errno);
    return count(pth_accept_ev(descriptor(c->x[1]), NULL, NULL, c->l->count > 2 ? ring_of(c->x[2]) : NULL));
}

struct answer connect_to(struct call *c) {
    static const struct sockaddr address;
    if (c->l->count > 2 && claim(c, c->x[2]) < 0) return refusal(errno);
    return count(pth_connect_ev(descriptor(c->x[1]), &address, sizeof address, c->l->count > 2 ? ring_of(c->x[2]) : NULL));
}

struct answer select_of(struct call *c) {
    fd_set set[3];
    if (c->l->count > 5 && claim(c, c->x[5]) < 0) return refusal(errno);
    if (c->x[4] < -1) return refusal(EINVAL);
    for (int i = 0; i < 3; i++) read_set(c->l, i + 1, &set[i]);
    pth_time_t rest = time_of(at_least_1(rest_of(c->x[4])));
    int n = pth_select_ev(LOCKS, &set[0], &set[1], &set[2], c->x[4] < 0 ? NULL : &rest, c->l->count > 5 ? ring_of(c->x[5]) : NULL);
    return n == 0 ? words(0, "0 sets - - -") : count(n);
}

struct answer fdmode(struct call *c) {
    static const int modes[] = {PTH_FDMODE_POLL, PTH_FDMODE_BLOCK, PTH_FDMODE_NONBLOCK};
    if (c->x[2] < 0 || c->x[2] > 2) return refusal(EINVAL);
    return count(pth_fdmode(descriptor(c->x[1]), modes[c->x[2]]));
}

struct answer close_it(struct call *c) { return close(descriptor(c->x[1])) == 0 ? number(1) : refusal(errno); }
