/* Puts a record of 24 bytes into the history: what failed, when, how often, and what its queue has then. It is followed by so many of
   the sense bytes as came, at most 24. */
#include "../policies/camr.h"
struct record {
    u16 kind;
    u8 scsi;
    u8 key;
    u8 asc;
    u8 ascq;
    u16 attempts;
    u64 time;
    u32 waiting;
    u32 active;
};
u64 policy(struct context *c, u64 freeze) {
    struct record record;
    struct queue_counts counts;
    u8 bytes[24];
    queue_info(&counts);
    record.kind = (c->status & STATUS_CODE) << 8 | (c->sense_length != 0);
    record.scsi = c->scsi;
    record.key = c->key;
    record.asc = c->asc;
    record.ascq = c->ascq;
    record.attempts = c->attempts > 0xffff ? 0xffff : c->attempts;
    record.time = now();
    record.waiting = counts.waiting;
    record.active = counts.active;
    trace(&record, sizeof record);
    u64 length = c->sense_length;
    if (length > sizeof bytes)
        length = sizeof bytes;
#pragma clang loop unroll(full)
    for (int i = 0; i < (int)sizeof bytes; i++)
        bytes[i] = c->sense[i];
    if (length)
        trace(bytes, length);
    if (freeze) {
        if (counts.frozen > 1)
            release(freeze);
        else
            release_after(freeze, 10 * (u64)(record.attempts & 0xff) + 10);
    }
    requeue(1);
    return length;
}
