/* Counts in table 0 how often each sense key came, and gives a CCB up whose device reports a medium error for the fourth
   time. */
#include "camr.h"
enum { SENSE_COUNTS = 0, MEDIUM_ERROR = 3, SCSI_STATUS_ERROR = 0x0c };
u64 policy(struct context *c, u64 freeze) {
    u64 key = c->key & 15;
    u64 times = table_add(SENSE_COUNTS, key, 1);
    if (freeze)
        release(freeze);
    if (key == MEDIUM_ERROR && times > 3)
        finish(SCSI_STATUS_ERROR);
    else
        requeue(1);
    return times;
}
