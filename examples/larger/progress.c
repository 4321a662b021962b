/* A device that formats itself reports how far it is: the queue is left alone for as long as what is left may take, between a tenth
   of a second and five minutes. In fixed and in descriptor format. */
#include "../policies/camr.h"
static u32 word_at(const struct context *c, u32 at) {
    return (u32)c->sense[at & 63] << 8 | c->sense[at + 1 & 63];
}
u64 policy(struct context *c, u64 freeze) {
    u32 kind = c->sense[0] & 0x7f;
    u32 at = 0, done = 0, is_known = 0;
    if (c->sense_length >= 18) {
        if (kind == 0x70 || kind == 0x71)
            at = 15;
        else if (kind == 0x72 || kind == 0x73)
            at = 12;
        if (at && (c->sense[at] & 0x80)) {
            is_known = 1;
            done = word_at(c, at + 1);
        }
    }
    u32 wait = 1000;
    if (is_known && c->key == SENSE_NOT_READY && c->asc == 0x04)
        wait = (65536 - done) * 5;
    if (wait < 100)
        wait = 100;
    if (wait > 300000)
        wait = 300000;
    if (freeze)
        release_after(freeze, wait);
    if (c->key == SENSE_NOT_READY)
        requeue(0);
    else if (c->retries)
        requeue(1);
    else
        finish(c->status & STATUS_CODE);
    return wait;
}
