/* A checksum over the sense bytes, by which a device that reports the same failure again and again is known: its index is kept in
   table 0, the count of each checksum in table 1. */
#include "../policies/camr.h"
u64 policy(struct context *c, u64 freeze) {
    u32 low = 1, high = 0;
#pragma clang loop unroll(full)
    for (u32 i = 0; i < 18; i++) {
        low = (low + c->sense[i]) % 65521;
        high = (high + low) % 65521;
    }
    u32 sum = high << 16 | low;
    u32 slot = (sum ^ sum >> 16) & 15;
    table_put(0, c->queue & 15, sum);
    u64 count = table_add(1, slot, 1);
    u64 wait = 100 + (count & 31) * 100;
    if (freeze)
        release_after(freeze, wait);
    if (count > 100)
        finish(c->status & STATUS_CODE);
    else
        requeue(1);
    return sum;
}
