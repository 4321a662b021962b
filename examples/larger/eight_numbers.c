/* Eight numbers that are all alive over the calls of helpers: the compiler has registers for four, and spills the others. */
#include "../policies/camr.h"
u64 policy(struct context *c, u64 freeze) {
    u64 key = c->key & 15;
    u64 code = c->status & STATUS_CODE;
    u64 attempts = c->attempts;
    u64 length = c->sense_length;
    u64 first = c->sense[0] & 0x7f;
    u64 queue = c->queue & 7;
    u64 asc = c->asc >> 4;
    if (attempts > 30)
        attempts = 30;
    if (length > 63)
        length = 63;
    u64 time = now();
    u64 failures = table_add(0, key, 1);
    u64 of_queue = table_add(1, queue, attempts);
    u64 last = table_put(2, asc, time);
    u64 byte = c->sense[length];
    u64 wait = (attempts + 1) * 100 + asc * 10 + (byte & 31);
    table_add(0, first & 15, code);
    if (time - last < 1000)
        wait += key * 50;
    if (freeze)
        release_after(freeze, wait);
    if (failures > 1000 && of_queue > 500)
        finish(code);
    else
        requeue(attempts < 20 ? 1 : 0);
    return wait + queue + first + length;
}
