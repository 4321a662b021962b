/* Holds queue 1 for a second as well, as where both queues lead through one cable. */
#include "camr.h"
u64 policy(struct context *c, u64 freeze) {
    u64 neighbour = freeze_queue(1);
    if (neighbour)
        release_after(neighbour, 1000);
    if (freeze)
        release(freeze);
    requeue(0);
    return neighbour != 0;
}
