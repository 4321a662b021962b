/* A bucket of tokens for each of eight groups of queues: a retry takes one, and ten come back in a second. Table 0 has how many there
   are, table 1 when they were counted last. Where there is none the queue waits until there is. */
#include "../policies/camr.h"
enum { MOST = 50, IN_A_SECOND = 10 };
u64 policy(struct context *c, u64 freeze) {
    u64 group = c->queue >> 2 & 7;
    u64 time = now();
    u64 since = time - table_put(1, group, time);
    u64 tokens = table_get(0, group);
    if (since > 10000)
        since = 10000;
    if (tokens > MOST)
        tokens = MOST;
    tokens += since * IN_A_SECOND / 1000;
    if (tokens > MOST)
        tokens = MOST;
    table_put(0, group, tokens == 0 ? 0 : tokens - 1);
    if (freeze) {
        if (tokens == 0)
            release_after(freeze, 1000 / IN_A_SECOND);
        else
            release(freeze);
    }
    requeue(tokens == 0 ? 0 : 1);
    return tokens;
}
