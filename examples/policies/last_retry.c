/* Gives the CCB up with the code of its status once its retries are used up. The freeze is given back by a function that the
   compiler keeps apart. */
#include "camr.h"
static __attribute__((noinline)) void thaw(u64 freeze);
u64 policy(struct context *c, u64 freeze) {
    u64 retries = c->retries;
    u64 code = c->status & 63;
    thaw(freeze);
    if (retries)
        requeue(1);
    else
        finish(code);
    return retries;
}
static __attribute__((noinline)) void thaw(u64 freeze) {
    if (freeze)
        release(freeze);
}
