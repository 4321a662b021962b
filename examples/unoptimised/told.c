/* Puts the sense key and its code into the history, and holds queue 1 back too while it does. */
#include "../policies/camr.h"
u64 policy(struct context *c, u64 freeze) {
    u8 bytes[3];
    u64 other = freeze_queue(1);
    bytes[0] = c->key;
    bytes[1] = c->asc;
    bytes[2] = c->ascq;
    trace(bytes, sizeof bytes);
    if (other)
        release(other);
    if (freeze)
        release(freeze);
    requeue(0);
    return 0;
}
