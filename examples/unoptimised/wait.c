/* Holds the queue back for a second, and tries again. What it was given stands on the stack and is loaded from there. */
#include "../policies/camr.h"
u64 policy(struct context *c, u64 freeze) {
    if (freeze)
        release_after(freeze, 1000);
    requeue(1);
    return 0;
}
