/* Counts its runs in a word of table 0, and holds the queue back for longer from the tenth on. */
#include "../policies/camr.h"
u64 policy(struct context *c, u64 freeze) {
    u64 runs = table_add(0, 3, 1);
    if (freeze) {
        if (runs < 10)
            release_after(freeze, 50);
        else
            release_after(freeze, 5000);
    }
    requeue(1);
    return runs;
}
