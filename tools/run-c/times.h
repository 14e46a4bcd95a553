/* Moments of the program, which are times of day, and of the machine. */
#ifndef TIMES_H
#define TIMES_H

#include "threads.h"

/* Returns the machine's moment of a time of day: microseconds from the start, and 0 for what was before. */
long long time_moment(pth_time_t time);

#endif
