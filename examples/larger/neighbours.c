/* Freezes up to two neighbours of the queue beside it, by what failed, and lets them go one after another. */
#include "../policies/camr.h"
enum { NONE, ONE, BOTH };
u64 policy(struct context *c, u64 freeze) {
    u64 first = 0, second = 0;
    u64 how = NONE;
    switch (c->status & STATUS_CODE) {
    case CAM_SCSI_BUS_RESET:
        how = BOTH;
        break;
    case CAM_BDR_SENT:
        how = ONE;
        break;
    case CAM_SCSI_STATUS_ERROR:
        switch (c->scsi) {
        case SCSI_TASK_SET_FULL:
            how = c->attempts > 5 ? ONE : NONE;
            break;
        case SCSI_CHECK_CONDITION:
            how = c->key == SENSE_UNIT_ATTENTION && c->asc == 0x29 ? BOTH : NONE;
            break;
        }
        break;
    }
    first = freeze_queue(how >= ONE ? 0 : 1);
    second = freeze_queue(1);
    if (first) {
        if (how == NONE)
            release(first);
        else
            release_after(first, 500 * how);
    }
    if (second) {
        if (how == BOTH)
            release_after(second, 2000);
        else
            release(second);
    }
    if (freeze)
        release(freeze);
    requeue(how == NONE);
    return how;
}
