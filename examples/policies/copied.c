/* Copies the first sense bytes to the stack, turned around, and adds up what is there. */
#include "camr.h"
u64 policy(struct context *c, u64 freeze) {
    volatile u8 turned[8];
    u64 sum = 0;
    for (int i = 0; i < 8; i++)
        turned[7 - i] = c->sense[i];
    for (int i = 0; i < 8; i++)
        sum = sum * 3 + turned[i];
    if (freeze)
        release(freeze);
    requeue(0);
    return sum;
}
