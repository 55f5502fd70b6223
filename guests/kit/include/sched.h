// The one function of <sched.h> that a guest has.
#ifndef ROMAIN_SCHED_H
#define ROMAIN_SCHED_H

// Threads run beside each other, and none keeps a processor from another: there is nothing to be done.
static inline int sched_yield(void)
{
    return 0;
}

#endif
