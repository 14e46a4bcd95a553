/* Attribute objects and cancel states. */
#ifndef ATTRIBUTES_H
#define ATTRIBUTES_H

#include "threads.h"

/* An attribute object. The machine has its fields but for the stack size. */
struct pth_attr_st {
    int number;          /* the machine's number */
    unsigned stack_size; /* 0 for the least */
    pth_t bound;         /* the thread that it is bound to, or NULL */
};

/* The machine's number of a cancel state, and the flags of pth.h of such a number. */
int cancel_state_number(unsigned flags);
unsigned cancel_state_flags(long number);

#endif
