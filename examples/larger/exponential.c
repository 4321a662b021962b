/* Waits twice as long after each attempt, by 50 ms at first and at most by half a minute, and by up to an eighth more, so that queues
   that failed at one time do not come again at one time. */
#include "../policies/camr.h"
u64 policy(struct context *c, u64 freeze) {
    u32 attempts = c->attempts;
    if (attempts > 10)
        attempts = 10;
    u64 wait = 50ull << attempts;
    u64 jitter = (now() ^ (u64)c->queue * 40503) & 0x7f;
    if (wait > 30000)
        wait = 30000;
    wait += wait * jitter >> 10;
    if (freeze)
        release_after(freeze, wait);
    if (c->retries == 0 && c->attempts > 20)
        finish(c->status & STATUS_CODE);
    else
        requeue(1);
    return wait;
}
