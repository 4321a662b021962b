/* Lets the queue start again after a while: a quarter of a second more with each attempt, ten seconds at most. How long that
   is, is told by a function that the compiler keeps apart. */
#include "camr.h"
static __attribute__((noinline)) u64 delay(const struct context *c);
u64 policy(struct context *c, u64 freeze) {
    u64 milliseconds = delay(c);
    if (freeze)
        release_after(freeze, milliseconds);
    requeue(1);
    return 0;
}
static __attribute__((noinline)) u64 delay(const struct context *c) {
    u64 attempts = c->attempts;
    if (attempts > 40)
        attempts = 40;
    return 250 * attempts + 1;
}
