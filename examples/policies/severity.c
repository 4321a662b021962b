/* Waits for as long as the error is grave, which a function of its own decides; another gives the freeze back. */
#include "camr.h"
#define APART static __attribute__((noinline))
APART u64 severity(const struct context *c);
APART void thaw(u64 freeze, u64 milliseconds);
u64 policy(struct context *c, u64 freeze) {
    u64 grave = severity(c);
    u64 used = c->scsi != 0x28;
    thaw(freeze, grave * 500);
    requeue(used);
    return grave;
}
/* From 0 to 3, by the sense key, and by what is told of a target that is not ready. */
APART u64 severity(const struct context *c) {
    switch (c->key) {
    case 0x2:
        return c->asc == 0x04 && c->ascq == 0x01 ? 3 : 2;
    case 0x6:
        return 1;
    default:
        return 0;
    }
}
APART void thaw(u64 freeze, u64 milliseconds) {
    if (!freeze)
        return;
    if (milliseconds)
        release_after(freeze, milliseconds);
    else
        release(freeze);
}
