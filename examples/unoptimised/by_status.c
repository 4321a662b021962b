/* Tries again where the device is full, or was tried less than three times; else the CCB is finished as failed. */
#include "../policies/camr.h"
u64 policy(struct context *c, u64 freeze) {
    u32 attempts = c->attempts;
    if (freeze)
        release(freeze);
    if (c->scsi == 0x28 || attempts < 3)
        requeue(1);
    else
        finish(4);
    return attempts;
}
