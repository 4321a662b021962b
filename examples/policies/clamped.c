/* Reads the last sense byte that came, its index clamped. */
#include "camr.h"
u64 policy(struct context *c, u64 freeze) {
    u32 n = c->sense_length;
    u64 last = 0;
    if (n > 64)
        n = 64;
    if (n > 0)
        last = c->sense[n - 1];
    if (freeze)
        release(freeze);
    requeue(n > 18);
    return last;
}
