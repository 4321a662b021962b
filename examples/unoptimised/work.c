/* A function keeps what is to be done in its caller's frame, and another does it from there. */
#include "../policies/camr.h"
struct work {
    struct context *context;
    u64 freeze;
};
static __attribute__((noinline)) u64 begin(struct work *work, struct context *c, u64 freeze);
static __attribute__((noinline)) u64 end(struct work *work);
u64 policy(struct context *c, u64 freeze) {
    struct work work;
    begin(&work, c, freeze);
    end(&work);
    if (work.context->retries)
        requeue(1);
    else
        finish(4);
    return 0;
}
static __attribute__((noinline)) u64 begin(struct work *work, struct context *c, u64 freeze) {
    work->context = c;
    work->freeze = freeze;
    return 0;
}
static __attribute__((noinline)) u64 end(struct work *work) {
    if (work->freeze)
        release(work->freeze);
    return 0;
}
