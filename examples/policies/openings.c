/* At TASK SET FULL the queue gets as many openings as CCBs are active, for so many the device has taken. Any other failure
   that comes ten seconds after the last change gives it one more. Table 1 has the time of each queue's last change. */
#include "camr.h"
enum { CHANGED_AT = 1, TASK_SET_FULL = 0x28, MOST_OPENINGS = 255 };
static u64 change(u64 queue, u64 openings);
u64 policy(struct context *c, u64 freeze) {
    u64 queue = c->queue & 63;
    struct queue_counts counts;
    queue_info(&counts);
    if (c->scsi == TASK_SET_FULL)
        change(queue, counts.active);
    else if (now() - table_get(CHANGED_AT, queue) >= 10000)
        change(queue, (u64)counts.openings + 1);
    if (freeze)
        release(freeze);
    requeue(0);
    return 0;
}
static u64 change(u64 queue, u64 openings) {
    if (openings < 1)
        openings = 1;
    if (openings > MOST_OPENINGS)
        openings = MOST_OPENINGS;
    table_put(CHANGED_AT, queue, now());
    return set_openings(openings);
}
