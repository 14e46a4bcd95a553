/* Functions of the C library that take their places in the program, for descriptors that the machine knows. On other
   descriptors, and in child processes, they only make their system calls. */
#ifndef PLAIN_H
#define PLAIN_H

#define EXPORTED __attribute__((visibility("default")))

#endif
