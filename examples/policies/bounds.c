/* Skips descriptors of a record in descriptor format, each as long as it says. */
#include "camr.h"
u64 policy(struct context *c, u64 freeze) {
    u64 at = 8, kind = 0;
    if ((c->sense[0] & 0x7f) == 0x72) {
        u64 length = c->sense[at + 1];
        if (length < 40) {
            at += length + 2;
            kind = c->sense[at];
        }
    }
    if (freeze)
        release(freeze);
    requeue(kind == 2);
    return at << 8 | kind;
}
