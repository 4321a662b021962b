/* A state machine whose state stands in a word of table 0, one for each queue: a path is up, suspect, down, or on probation. */
#include "../policies/camr.h"
enum state { UP, SUSPECT, DOWN, PROBATION };
enum event { TIMED_OUT, RESET, ABORTED, SENSE, OTHER };
u64 policy(struct context *c, u64 freeze) {
    u64 index = c->queue & 15;
    u64 state = table_get(0, index);
    u64 next, wait;
    enum event event;
    switch (c->status & STATUS_CODE) {
    case CAM_CMD_TIMEOUT:
    case CAM_SEL_TIMEOUT:
        event = TIMED_OUT;
        break;
    case CAM_SCSI_BUS_RESET:
    case CAM_BDR_SENT:
        event = RESET;
        break;
    case CAM_REQ_ABORTED:
        event = ABORTED;
        break;
    case CAM_SCSI_STATUS_ERROR:
        event = SENSE;
        break;
    default:
        event = OTHER;
        break;
    }
    switch (state) {
    case UP:
        switch (event) {
        case TIMED_OUT:
            next = SUSPECT;
            wait = 200;
            break;
        case RESET:
            next = PROBATION;
            wait = 1000;
            break;
        default:
            next = UP;
            wait = 10;
            break;
        }
        break;
    case SUSPECT:
        switch (event) {
        case TIMED_OUT:
            next = DOWN;
            wait = 5000;
            break;
        case RESET:
            next = PROBATION;
            wait = 2000;
            break;
        case SENSE:
            next = UP;
            wait = 10;
            break;
        default:
            next = SUSPECT;
            wait = 100;
            break;
        }
        break;
    case DOWN:
        next = event == SENSE ? PROBATION : DOWN;
        wait = 10000;
        break;
    default:
        next = event == SENSE ? UP : event == TIMED_OUT ? DOWN : PROBATION;
        wait = 500;
        break;
    }
    table_put(0, index, next);
    if (freeze)
        release_after(freeze, wait);
    if (next == DOWN && c->retries == 0)
        finish(c->status & STATUS_CODE);
    else
        requeue(next != UP);
    return next;
}
