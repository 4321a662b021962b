/* Recovers the commands of a disk behind a network: which failures are tried again, after how long, and whether a retry counts.
   README.md has the table. It advises its transport of what has to come before the next try, where a retry alone would not do. */
#include "../../examples/policies/camr.h"
#define APART static __attribute__((noinline))

/* What is decided of a failure: how many milliseconds its queue stays frozen, at most 524,287, and these beside it. */
enum { MILLISECONDS = 0x7ffff, COUNTS = 1 << 20, NO_RETRY_HELPS = 1 << 21, WAS_CARRIED_OUT = 1 << 22 };
/* So many milliseconds as a part of what is decided: more than have room there do not compile. */
#define WAIT(ms) ((ms) + 0 * sizeof(struct { _Static_assert((ms) >= 0 && (ms) <= MILLISECONDS, "a wait is 0 to 524,287 ms"); char none; }))
enum {
    DONE = 0x01,         /* the final code of a command that did what it was to do */
    MOST_ATTEMPTS = 250, /* also a retry that does not count ends at last */
    SCSI_ACA_ACTIVE = 0x30,
    SCSI_TASK_ABORTED = 0x40,
    SENSE_MISCOMPARE = 0xe
};

APART u64 final_code(const struct context *c, u64 decided);
APART u64 by_status(const struct context *c);
APART u64 by_scsi_status(const struct context *c);
APART u64 by_sense(const struct context *c);
APART u64 by_key(u64 key);
APART u64 not_ready(const struct context *c);

u64 policy(struct context *c, u64 freeze)
{
    u64 decided = by_status(c);
    u64 wait = decided & MILLISECONDS;
    if (freeze) {
        if (wait)
            release_after(freeze, wait);
        else
            release(freeze);
    }
    u64 code = final_code(c, decided) & STATUS_CODE;
    if (code)
        finish(code);
    else
        requeue(decided & COUNTS ? 1 : 0);
    return 0;
}

/* The code with which the command is finished, or 0 if it is tried again. */
APART u64 final_code(const struct context *c, u64 decided)
{
    if (decided & WAS_CARRIED_OUT)
        return DONE;
    if (decided & NO_RETRY_HELPS || c->attempts > MOST_ATTEMPTS)
        return c->status;
    return decided & COUNTS && c->retries == 0 ? c->status : 0;
}

/* By the CAM status: what the transport saw. */
APART u64 by_status(const struct context *c)
{
    u32 status = c->status & STATUS_CODE;
    if (status == CAM_SCSI_STATUS_ERROR)
        return by_scsi_status(c);
    if (status == CAM_CMD_TIMEOUT) {
        if (c->retries == 1)
            advise(ADVICE_RECONNECT);
        return WAIT(100) | COUNTS;
    }
    if (status == CAM_BUSY)
        return WAIT(100);
    if (status == CAM_SEL_TIMEOUT)
        return WAIT(250) | COUNTS;
    /* a neighbour's time-out or a lost connection took this command with it, or the transport asks for another try */
    return 0;
}

/* By the SCSI status: what the device answered. */
APART u64 by_scsi_status(const struct context *c)
{
    if (c->scsi == SCSI_CHECK_CONDITION)
        return by_sense(c);
    if (c->scsi == SCSI_BUSY)
        return WAIT(100);
    if (c->scsi == SCSI_TASK_SET_FULL)
        return WAIT(20);
    if (c->scsi == SCSI_RESERVATION_CONFLICT)
        return WAIT(250) | COUNTS;
    if (c->scsi == SCSI_ACA_ACTIVE) {
        advise(ADVICE_LOGICAL_UNIT_RESET);
        return WAIT(20);
    }
    if (c->scsi == SCSI_TASK_ABORTED)
        return 0;
    return WAIT(100) | COUNTS;
}

APART u64 by_sense(const struct context *c)
{
    /* a deferred error is that of an earlier command: this one was not carried out */
    if (c->sense_length != 0 && (c->sense[0] & 0x7d) == 0x71)
        return 0;
    if (c->key == SENSE_UNIT_ATTENTION)
        return 0;
    if (c->key == SENSE_RECOVERED_ERROR)
        return WAS_CARRIED_OUT;
    if (c->key == SENSE_NOT_READY)
        return not_ready(c);
    return by_key(c->key);
}

/* The keys whose sense codes make no difference. */
APART u64 by_key(u64 key)
{
    if (key == SENSE_ABORTED_COMMAND)
        return COUNTS;
    if (key == SENSE_ILLEGAL_REQUEST || key == SENSE_DATA_PROTECT || key == SENSE_MISCOMPARE)
        return NO_RETRY_HELPS;
    return WAIT(100) | COUNTS;
}

/* 04/02 and 3a: the unit has to be started or loaded. Else it becomes ready by itself, and is asked until it is. */
APART u64 not_ready(const struct context *c)
{
    if (c->asc == 0x3a || (c->asc == 0x04 && c->ascq == 0x02))
        advise(ADVICE_START_UNIT);
    else
        advise(ADVICE_TEST_UNIT_READY);
    return WAIT(250) | COUNTS;
}
