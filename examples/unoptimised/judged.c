/* Asks a function of its own whether a further try is of use, while the freeze stands on the stack. */
#include "../policies/camr.h"
static __attribute__((noinline)) u64 is_of_use(const struct context *c);
u64 policy(struct context *c, u64 freeze) {
    u64 again = is_of_use(c);
    if (freeze)
        release(freeze);
    if (again)
        requeue(1);
    else
        finish(4);
    return 0;
}
static __attribute__((noinline)) u64 is_of_use(const struct context *c) {
    if (c->retries == 0)
        return 0;
    return c->key != 3 && c->key != 5;
}
