/* Counts how long commands stay away from one failure to the next, in powers of two of milliseconds: table 0 has the last failure of
   each queue, table 1 the counts. */
#include "../policies/camr.h"
#define APART static __attribute__((noinline))
APART u64 power_of(u64 number);
u64 policy(struct context *c, u64 freeze) {
    u64 index = c->queue & 31;
    u64 time = now();
    u64 last = table_put(0, index, time);
    u64 away = time - last;
    u64 power = power_of(away);
    if (power > 15)
        power = 15;
    u64 count = table_add(1, power, 1);
    if (freeze) {
        if (power < 4 && count > 8)
            release_after(freeze, 1ull << (power + 4));
        else
            release(freeze);
    }
    requeue(power < 8);
    return count;
}
/* The place of its highest bit, counted from 1; 0 of 0. */
APART u64 power_of(u64 number) {
    u64 power = number != 0;
    if (number >> 32) {
        number >>= 32;
        power += 32;
    }
    if (number >> 16) {
        number >>= 16;
        power += 16;
    }
    if (number >> 8) {
        number >>= 8;
        power += 8;
    }
    if (number >> 4) {
        number >>= 4;
        power += 4;
    }
    if (number >> 2) {
        number >>= 2;
        power += 2;
    }
    if (number >> 1)
        power += 1;
    return power;
}
