/* A table on the stack, filled from the record and read at a bounded index. */
#include "camr.h"
u64 policy(struct context *c, u64 freeze) {
    volatile u32 weights[8];
    u32 index = c->ascq >> 5;
    for (u32 i = 0; i < 8; i++)
        weights[i] = c->sense[8 + i] * (i + 1);
    u64 weight = weights[index];
    if (freeze)
        release(freeze);
    requeue(weight > 40 ? 1 : 0);
    return weight;
}
