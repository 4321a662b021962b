/* Decides as Linux 6.12 does for a disk: as its SCSI mid-layer does by the status and the sense data, and as its disk driver does at the
   end of a command. README.md has the table; decisions.txt has each decision, and mapping.txt says which outcome stands for it.

   Table 0 has 4,096 words: when a command failed for the first time, in milliseconds, beside its number. */
#include "../../examples/policies/camr.h"
#define APART static __attribute__((noinline))

/* What is decided: how many milliseconds the queue stays frozen, at most 524,287, and these beside it. */
enum { MILLISECONDS = 0x7ffff, COUNTS = 1 << 20, FAILS = 1 << 21, SUCCEEDS = 1 << 22 };
/* So many milliseconds as a part of what is decided: more than have room there do not compile. */
#define WAIT(ms) ((ms) + 0 * sizeof(struct { _Static_assert((ms) >= 0 && (ms) <= MILLISECONDS, "a wait is 0 to 524,287 ms"); char none; }))

/* The decisions. The device has not executed a command that it refuses as busy, and it will be ready again by itself if it is becoming
   ready: these do not count against the retries. A command that may have been executed counts. */
enum {
    SUCCEED = SUCCEEDS,
    FAIL = FAILS,
    RETRY = COUNTS,
    RETRY_AT_ONCE = 0,
    RETRY_LATER = WAIT(500),
    QUEUE_IS_BUSY = WAIT(50),
    PREPARE_AGAIN = 0,
    PREPARE_IN_A_SECOND = WAIT(1000),
    ERROR_HANDLER = WAIT(250) | COUNTS
};

enum {
    DONE = 0x01,           /* the final code of a command that did what it was to do */
    TOTAL_TIME = 180000,   /* what a command may take in all: Linux gives it 30 s for each of six attempts */
    MOST_ATTEMPTS = 4000,  /* where no clock is read, this ends it */
    FIRST_FAILURES = 0,    /* the table, */
    FAILURES_MASK = 0xfff, /* and its length less 1 */
    SCSI_GOOD = 0x00,
    SCSI_CONDITION_MET = 0x04,
    SCSI_INTERMEDIATE = 0x10,
    SCSI_INTERMEDIATE_MET = 0x14,
    SCSI_COMMAND_TERMINATED = 0x22,
    SCSI_ACA_ACTIVE = 0x30,
    SCSI_TASK_ABORTED = 0x40,
    SENSE_NO_SENSE = 0x0
};

APART u64 by_status(const struct context *c);
APART u64 by_scsi_status(const struct context *c);
APART u64 by_sense(const struct context *c);
APART u64 not_ready(const struct context *c);
APART u64 unit_attention(const struct context *c);
APART u64 medium_error(const struct context *c);
APART u64 aborted_command(const struct context *c);
APART u64 without_retries(const struct context *c);
APART u64 error_handler(const struct context *c);
APART u64 is_overdue(const struct context *c);
APART u64 is_current(const struct context *c);

u64 policy(struct context *c, u64 freeze)
{
    u64 decided = by_status(c);
    if (decided & COUNTS && c->retries == 0)
        decided = without_retries(c);
    if (is_overdue(c) && !(decided & SUCCEEDS))
        decided = FAIL;
    u64 wait = decided & MILLISECONDS;
    if (freeze) {
        if (wait)
            release_after(freeze, wait);
        else
            release(freeze);
    }
    if (decided & SUCCEEDS)
        finish(DONE);
    else if (decided & FAILS)
        finish(c->status & STATUS_CODE);
    else
        requeue(decided & COUNTS ? 1 : 0);
    return decided;
}

/* By the CAM status, which stands for Linux's host byte. */
APART u64 by_status(const struct context *c)
{
    u32 status = c->status & STATUS_CODE;
    if (status == CAM_SCSI_STATUS_ERROR)
        return by_scsi_status(c);
    /* the adapter could not take the command */
    if (status == CAM_BUSY)
        return RETRY;
    /* nobody knows what became of it: it has to be aborted before it may be tried again */
    if (status == CAM_CMD_TIMEOUT)
        return error_handler(c);
    /* somebody else's reset took it along */
    if (status == CAM_SCSI_BUS_RESET || status == CAM_BDR_SENT)
        return RETRY_AT_ONCE;
    /* the transport could not start it, and hands it back */
    if (status == CAM_REQUEUE_REQ)
        return QUEUE_IS_BUSY;
    /* no device answered (CAM_SEL_TIMEOUT), or the host itself gave the command up (CAM_REQ_ABORTED) */
    return FAIL;
}

APART u64 by_scsi_status(const struct context *c)
{
    switch (c->scsi) {
    case SCSI_GOOD:
        return SUCCEED;
    case SCSI_CHECK_CONDITION:
        return by_sense(c);
    /* SAM: the task set has not taken the command */
    case SCSI_BUSY:
    case SCSI_TASK_SET_FULL:
        return QUEUE_IS_BUSY;
    /* no errors, and yet no end of a read or a write */
    case SCSI_CONDITION_MET:
    case SCSI_INTERMEDIATE:
    case SCSI_INTERMEDIATE_MET:
    case SCSI_COMMAND_TERMINATED:
        return PREPARE_AGAIN;
    /* another initiator aborted it */
    case SCSI_TASK_ABORTED:
        return RETRY;
    case SCSI_RESERVATION_CONFLICT:
    case SCSI_ACA_ACTIVE:
        return FAIL;
    default:
        return error_handler(c);
    }
}

/* By the sense data. Without any that SPC describes, only the error handler can find out what failed. */
APART u64 by_sense(const struct context *c)
{
    u64 code = c->sense[0] & 0x7f;
    if (c->sense_length == 0 || code < 0x70 || code > 0x73)
        return error_handler(c);
    /* a deferred error is that of an earlier command: SPC says that this one was not executed */
    if (!is_current(c))
        return RETRY;
    switch (c->key) {
    /* a CHECK CONDITION without an error: nobody knows how much was transferred */
    case SENSE_NO_SENSE:
        return PREPARE_AGAIN;
    case SENSE_RECOVERED_ERROR:
        return SUCCEED;
    case SENSE_NOT_READY:
        return not_ready(c);
    case SENSE_MEDIUM_ERROR:
        return medium_error(c);
    case SENSE_UNIT_ATTENTION:
        return unit_attention(c);
    case SENSE_ABORTED_COMMAND:
        return aborted_command(c);
    default:
        return FAIL;
    }
}

/* The unit is becoming ready, or does something that ends by itself. All else that is not ready needs somebody. */
APART u64 not_ready(const struct context *c)
{
    if (c->asc != 0x04)
        return FAIL;
    switch (c->ascq) {
    case 0x01: /* becoming ready */
        return RETRY;
    case 0x04: /* format in progress */
    case 0x05: /* rebuild in progress */
    case 0x06: /* recalculation in progress */
    case 0x07: /* operation in progress */
    case 0x08: /* long write in progress */
    case 0x09: /* self-test in progress */
    case 0x11: /* NOTIFY (ENABLE SPINUP) required */
    case 0x14: /* space allocation in progress */
    case 0x1a: /* START STOP UNIT in progress */
    case 0x1b: /* sanitize in progress */
    case 0x1d: /* configuration in progress */
        return RETRY_LATER;
    case 0x0a: /* the asymmetric access state changes */
        return PREPARE_IN_A_SECOND;
    default:
        return FAIL;
    }
}

/* The command was not executed, since something is to be told first. */
APART u64 unit_attention(const struct context *c)
{
    if (c->asc == 0x04 && c->ascq == 0x01) /* becoming ready */
        return RETRY;
    if (c->asc == 0x3f && c->ascq == 0x0e) /* the reported LUNs changed */
        return RETRY;
    return RETRY_AT_ONCE;
}

/* What the device could not read after its own retries, no retry reads. */
APART u64 medium_error(const struct context *c)
{
    if (c->asc == 0x11 || c->asc == 0x13 || c->asc == 0x14) /* unrecovered, no address mark, no record */
        return FAIL;
    return RETRY;
}

APART u64 aborted_command(const struct context *c)
{
    if (c->asc == 0x10) /* protection information: the data are wrong */
        return FAIL;
    if (c->asc == 0x2e && c->ascq >= 0x01 && c->ascq <= 0x03) /* its duration limit is over */
        return FAIL;
    return RETRY;
}

/* What would count, and no retry is left. The end of the command judges once more, by the sense data alone: a unit that is becoming
   ready is waited for, and a unit attention is no failure of the command. */
APART u64 without_retries(const struct context *c)
{
    if ((c->status & STATUS_CODE) != CAM_SCSI_STATUS_ERROR || c->scsi != SCSI_CHECK_CONDITION)
        return FAIL;
    if (!is_current(c))
        return FAIL;
    if (c->key == SENSE_UNIT_ATTENTION)
        return RETRY_AT_ONCE;
    if (c->key == SENSE_NOT_READY && c->asc == 0x04 && c->ascq == 0x01)
        return RETRY_LATER;
    return FAIL;
}

/* Linux aborts the command, and then resets the device, the target, the bus and the host in turn until one helps. A policy can do none of
   these: it advises a reset of the device, and before the last retry a new connection. */
APART u64 error_handler(const struct context *c)
{
    if (c->retries != 0)
        advise(c->retries == 1 ? ADVICE_RECONNECT : ADVICE_LOGICAL_UNIT_RESET);
    return ERROR_HANDLER;
}

/* Whether the command has had all the time that it may take, which counts from its first failure. Two commands whose numbers are a
   multiple of 4,096 apart share a word. The later one takes it, and the time of the other counts anew. */
APART u64 is_overdue(const struct context *c)
{
    u64 time = now();
    u64 number = c->ccb;
    u64 index = number & FAILURES_MASK;
    if (c->attempts > MOST_ATTEMPTS)
        return 1;
    u64 first = table_get(FIRST_FAILURES, index);
    if (c->attempts > 1 && first >> 32 == number)
        return ((time - first) & 0xffffffff) > TOTAL_TIME;
    table_put(FIRST_FAILURES, index, number << 32 | (time & 0xffffffff));
    return 0;
}

/* Whether the sense data are those of this command: response codes 70 and 72, beside the deferred ones 71 and 73. */
APART u64 is_current(const struct context *c)
{
    u64 code = c->sense[0] & 0x7f;
    return c->sense_length != 0 && (code == 0x70 || code == 0x72);
}
