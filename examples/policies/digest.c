/* Puts into the history what the queue has and a digest of the sense bytes, each from a function of its own. */
#include "camr.h"
#define APART static __attribute__((noinline))
APART u64 digest(const u8 *bytes, u64 seed);
APART void tell(u64 number);
u64 policy(struct context *c, u64 freeze) {
    u64 first = digest(c->sense, 1);
    u64 second = digest(c->sense + 8, first);
    u64 code = c->status & 63;
    tell(first);
    tell(second);
    if (freeze)
        release(freeze);
    if (c->retries)
        requeue(1);
    else
        finish(code);
    return second;
}
/* Of eight bytes, one after another. */
APART u64 digest(const u8 *bytes, u64 seed) {
    u64 sum = seed;
#pragma clang loop unroll(full)
    for (int i = 0; i < 8; i++)
        sum = sum * 31 + bytes[i];
    return sum;
}
/* The number, and after it how many CCBs wait. */
APART void tell(u64 number) {
    struct queue_counts counts;
    u64 both[2];
    queue_info(&counts);
    both[0] = number;
    both[1] = counts.waiting;
    trace(both, sizeof both);
}
