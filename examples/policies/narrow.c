/* 32-bit arithmetic throughout: a count of attempts that is left, and a position in the record by status. */
#include "camr.h"
u64 policy(struct context *c, u64 freeze) {
    u32 status = c->status & 63;
    u32 left = (c->retries + 1) * 7 / (c->attempts | 1);
    u32 at = (status * 13 + c->key * 4) >> 4;
    u32 word = c->sense[at & 63];
    s32 balance = (s32)left - (s32)c->attempts;
    if (left > 100)
        left = 100;
    word = word << 8 | left;
    if (freeze)
        release(freeze);
    requeue(balance > 3);
    return word;
}
