/* Recovers the commands of one path to a device, under an upper layer that has other paths. What another path may heal is finished at once
   with the code of a lost path, 0a. What is true of the device on every path is tried again here, or finished with its own
   status. README.md has the table. */
#include "../../examples/policies/camr.h"
#define APART static __attribute__((noinline))

/* What is decided: how many milliseconds the queue stays frozen, at most 524,287, and these beside it. */
enum { MILLISECONDS = 0x7ffff, COUNTS = 1 << 20, FAILS = 1 << 21, SUCCEEDS = 1 << 22, PATH_FAILS = 1 << 23 };
/* So many milliseconds as a part of what is decided: more than have room there do not compile. */
#define WAIT(ms) ((ms) + 0 * sizeof(struct { _Static_assert((ms) >= 0 && (ms) <= MILLISECONDS, "a wait is 0 to 524,287 ms"); char none; }))
enum {
    DONE = 0x01,             /* the final code of a command that did what it was to do, */
    PATH_IS_LOST = 0x0a,     /* and of one that is to go by another path */
    MOST_ATTEMPTS = 600,     /* a minute of a device that stays busy */
    MOST_IN_TRANSITION = 60, /* a minute of a second each */
    SCSI_ACA_ACTIVE = 0x30,
    SCSI_TASK_ABORTED = 0x40
};

APART u64 final_code(const struct context *c, u64 decided);
APART u64 by_status(const struct context *c);
APART u64 by_scsi_status(const struct context *c);
APART u64 by_sense(const struct context *c);
APART u64 not_ready(const struct context *c);
APART u64 unit_attention(const struct context *c);
APART u64 hardware_error(const struct context *c);

u64 policy(struct context *c, u64 freeze)
{
    u64 decided = by_status(c);
    u64 wait = decided & MILLISECONDS;
    u64 code = final_code(c, decided) & STATUS_CODE;
    if (freeze) {
        if (wait && !code)
            release_after(freeze, wait);
        else
            release(freeze);
    }
    if (code)
        finish(code);
    else
        requeue(decided & COUNTS ? 1 : 0);
    return decided;
}

/* The code with which the command is finished, or 0 if it is tried again. What was tried on this path for long enough may go by another:
   the path may be why. */
APART u64 final_code(const struct context *c, u64 decided)
{
    if (decided & SUCCEEDS)
        return DONE;
    if (decided & FAILS)
        return c->status;
    if (decided & PATH_FAILS || c->attempts > MOST_ATTEMPTS)
        return PATH_IS_LOST;
    return decided & COUNTS && c->retries == 0 ? PATH_IS_LOST : 0;
}

/* By the CAM status: what the transport saw of the path. */
APART u64 by_status(const struct context *c)
{
    switch (c->status & STATUS_CODE) {
    case CAM_SCSI_STATUS_ERROR:
        return by_scsi_status(c);
    /* no answer, or the connection is gone: waiting for it is what other paths are there to avoid */
    case CAM_SEL_TIMEOUT:
    case CAM_CMD_TIMEOUT:
    case CAM_SCSI_BUS_RESET:
        return PATH_FAILS;
    /* the device was reset, by whichever path: the path is as good as before */
    case CAM_BDR_SENT:
        return 0;
    /* the transport has not sent it */
    case CAM_BUSY:
        return WAIT(50) | COUNTS;
    case CAM_REQUEUE_REQ:
        return 0;
    /* the upper layer gave it up (CAM_REQ_ABORTED) */
    default:
        return FAILS;
    }
}

/* By the SCSI status: the device answered, so the path is there. */
APART u64 by_scsi_status(const struct context *c)
{
    switch (c->scsi) {
    case SCSI_CHECK_CONDITION:
        return by_sense(c);
    /* SAM: the task set, which is one for all paths, has not taken the command */
    case SCSI_BUSY:
    case SCSI_TASK_SET_FULL:
        return WAIT(100);
    case SCSI_ACA_ACTIVE:
        return WAIT(20);
    case SCSI_TASK_ABORTED:
        return 0;
    /* a reservation refuses a host by whichever path (RESERVATION CONFLICT), and all other codes are no status of SAM */
    default:
        return FAILS;
    }
}

APART u64 by_sense(const struct context *c)
{
    u64 code = c->sense[0] & 0x7f;
    if (c->sense_length == 0)
        return WAIT(100) | COUNTS;
    /* a deferred error is that of an earlier command: this one was not executed */
    if (code == 0x71 || code == 0x73)
        return 0;
    switch (c->key) {
    case SENSE_RECOVERED_ERROR:
        return SUCCEEDS;
    case SENSE_NOT_READY:
        return not_ready(c);
    case SENSE_UNIT_ATTENTION:
        return unit_attention(c);
    case SENSE_HARDWARE_ERROR:
        return hardware_error(c);
    /* parity, CRC and such on the way, and what a device ends when it gives a path up */
    case SENSE_ABORTED_COMMAND:
        return COUNTS;
    case SENSE_ILLEGAL_REQUEST:
        /* 25/00: the logical unit is not there; on another path it may be */
        return c->asc == 0x25 ? PATH_FAILS : FAILS;
    default:
        return FAILS;
    }
}

/* The asymmetric access states of SPC stand under NOT READY, 04/0a to 04/0c. */
APART u64 not_ready(const struct context *c)
{
    if (c->asc != 0x04)
        return FAILS;
    switch (c->ascq) {
    case 0x0a: /* in transition: it ends by itself, and other paths of its group are in the same state */
        return c->attempts > MOST_IN_TRANSITION ? PATH_FAILS : WAIT(1000);
    case 0x0b: /* the target port is in standby, */
    case 0x0c: /* or unavailable, */
    case 0x12: /* or the logical unit is offline there */
        return PATH_FAILS;
    case 0x01: /* becoming ready: so it is on every path */
    case 0x07: /* operation in progress */
    case 0x14: /* space allocation in progress */
        return WAIT(500);
    default:
        return FAILS;
    }
}

/* The command was not executed. After a change of the access states (2a/06), or one that the device could not make (2a/07), the upper layer
   has to ask for the states before it goes on. */
APART u64 unit_attention(const struct context *c)
{
    if (c->asc == 0x2a && (c->ascq == 0x06 || c->ascq == 0x07))
        return PATH_FAILS;
    return 0;
}

/* What stands between the port and the logical unit may fail on one path alone. */
APART u64 hardware_error(const struct context *c)
{
    /* 08: the port cannot communicate with the logical unit; 3e/01: the logical unit failed */
    return c->asc == 0x08 ? PATH_FAILS : FAILS;
}
