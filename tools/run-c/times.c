/* Time: moments, timeouts and sleeps. */
#define _GNU_SOURCE
#include "times.h"
#include "session.h"

#include <errno.h>

enum { SECOND = 1000000 };

static long long microseconds(pth_time_t time) {
    return time.tv_sec * (long long)SECOND + time.tv_usec;
}

long long time_moment(pth_time_t time) {
    long long moment = microseconds(time) - microseconds(session.start);
    return moment < 0 ? 0 : moment;
}

pth_time_t pth_time(long seconds, long useconds) {
    return (pth_time_t){seconds, useconds};
}

pth_time_t pth_timeout(long seconds, long useconds) {
    CALL_ENTER();
    long long moment = call("timeout %lld", seconds * (long long)SECOND + useconds) + microseconds(session.start);
    return (pth_time_t){moment / SECOND, moment % SECOND};
}

int pth_nap(pth_time_t length) {
    CALL_ENTER();
    call("nap %lld", microseconds(length));
    return call_truth();
}

int pth_usleep(unsigned useconds) {
    CALL_ENTER();
    call("usleep %u", useconds);
    return call_error ? -1 : 0;
}

unsigned pth_sleep(unsigned seconds) {
    CALL_ENTER();
    call("sleep %u", seconds);
    return call_error ? seconds : 0;
}

int pth_nanosleep(const struct timespec *length, struct timespec *left) {
    CALL_ENTER();
    if (!length || length->tv_nsec < 0 || length->tv_nsec > 1000L * SECOND) {
        errno = length ? EINVAL : EFAULT;
        return -1;
    }
    if (length->tv_sec == 0 && length->tv_nsec == 0)
        return 0;
    call("usleep %lld", length->tv_sec * (long long)SECOND + (length->tv_nsec + 999) / 1000);
    if (call_error)
        return -1;
    if (left) /* nothing ends the sleep earlier */
        *left = (struct timespec){0, 0};
    return 0;
}
