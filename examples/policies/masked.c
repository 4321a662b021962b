/* Reads the sense byte that the record's additional length names, its index masked. */
#include "camr.h"
u64 policy(struct context *c, u64 freeze) {
    u64 last = c->sense[c->sense[7] & 63];
    if (freeze)
        release(freeze);
    requeue(last != 0);
    return last;
}
