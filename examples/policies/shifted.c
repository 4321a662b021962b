/* A mask of sense keys that are worth a retry, tested by a bounded shift. */
#include "camr.h"
u64 policy(struct context *c, u64 freeze) {
    u32 keys = 1u << 2 | 1u << 6 | 1u << 11;
    u32 key = c->key & 15;
    u64 again = keys >> key & 1;
    u64 word = (u64)c->sense[3] << 24 | (u64)c->sense[4] << 16 | (u64)c->sense[5] << 8 | c->sense[6];
    if (freeze)
        release(freeze);
    requeue(again);
    return word >> (c->asc & 31);
}
