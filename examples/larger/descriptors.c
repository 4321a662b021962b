/* Walks up to four descriptors of sense data in descriptor format, each as long as it says, and takes out the information and the
   sense key's own bytes. */
#include "../policies/camr.h"
enum { INFORMATION = 0x00, KEY_SPECIFIC = 0x02, BLOCK = 0x05 };
u64 policy(struct context *c, u64 freeze) {
    u64 at = 8, information = 0, specific = 0, is_wrong_length = 0;
    if ((c->sense[0] & 0x7e) == 0x72) {
        u64 end = 8 + (u64)c->sense[7];
#pragma clang loop unroll(full)
        for (int i = 0; i < 4; i++) {
            if (at < end && at < 48) {
                u8 kind = c->sense[at];
                u64 length = c->sense[at + 1];
                switch (kind) {
                case INFORMATION:
                    if (length == 10)
                        information = (u64)c->sense[at + 8] << 24 | (u64)c->sense[at + 9] << 16 | (u64)c->sense[at + 10] << 8 | c->sense[at + 11];
                    break;
                case KEY_SPECIFIC:
                    specific = (u64)(c->sense[at + 4] & 0x7f) << 16 | (u64)c->sense[at + 5] << 8 | c->sense[at + 6];
                    break;
                case BLOCK:
                    is_wrong_length = c->sense[at + 3] & 0x20;
                    break;
                }
                at += length + 2;
            }
        }
    }
    if (freeze)
        release(freeze);
    if (is_wrong_length)
        finish(c->status & STATUS_CODE);
    else
        requeue(information != 0);
    return information ^ specific;
}
