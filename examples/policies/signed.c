/* Takes a sense byte as a signed distance from the middle of the record, clamped to what lies in it. */
#include "camr.h"
u64 policy(struct context *c, u64 freeze) {
    s64 at = (s8)c->sense[2] + 32;
    if (at < 0)
        at = 0;
    else if (at > 63)
        at = 63;
    u64 found = c->sense[at];
    if (freeze)
        release(freeze);
    requeue(at < 32);
    return found;
}
