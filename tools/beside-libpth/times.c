/* Time: moments, lengths of time, and turns. */
#include "play_on_libpth.h"

long long unit = 1000, start;

long long now(void) {
    struct timeval t;
    gettimeofday(&t, NULL);
    return t.tv_sec * 1000000LL + t.tv_usec;
}

long long turn_began;

pth_time_t time_of(long long microseconds) {
    return pth_time(microseconds / 1000000, microseconds % 1000000);
}

long long real(long units) { return units > LONGEST * 1000000LL / unit ? LONGEST * 1000000LL : units * unit; }

/* What is left of a length of time that began with this turn, in microseconds. It is never 0 if the length isn't. */
long long rest_of(long units) {
    if (units == 0) return 0;
    long long rest = real(units) + start + turn_began * unit - now();
    return rest != 0 ? rest : -1;
}

long long at_least_1(long long rest) { return rest < 0 ? 1 : rest; }

/* A little longer than the unit: so a timer that is due as the turn ends is past by then. */
void use_up_turn(void) {
    while (now() < start + (turn_began + 1) * unit + unit / 20) continue;
}
