/* Puts the sense bytes that came, at most 18 of them, and the queue's counts into the history. */
#include "camr.h"
u64 policy(struct context *c, u64 freeze) {
    u8 copy[18];
    struct queue_counts counts;
    u32 length = c->sense_length;
    for (int i = 0; i < 18; i++)
        copy[i] = c->sense[i];
    if (length > 18)
        length = 18;
    if (length > 0)
        trace(copy, length);
    queue_info(&counts);
    trace(&counts, sizeof counts);
    if (freeze)
        release(freeze);
    requeue(counts.waiting > counts.openings ? 0 : 1);
    return length;
}
