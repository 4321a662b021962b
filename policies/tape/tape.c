/* Recovers the commands of a tape drive. A tape has no addresses: a WRITE that is repeated after it was executed puts its block there
   twice, and a READ that is repeated reads the next one. A policy does not see which command it is. So a command is tried again
   only if it surely was not begun, and if neither the medium nor its position can be another one by now. All else is finished with its
   error, and whoever writes the tape decides. README.md has the table. */
#include "../../examples/policies/camr.h"
#define APART static __attribute__((noinline))

/* What is decided: how many milliseconds the queue stays frozen, at most 524,287, and these beside it. */
enum { MILLISECONDS = 0x7ffff, COUNTS = 1 << 20, FAILS = 1 << 21, SUCCEEDS = 1 << 22 };
/* So many milliseconds as a part of what is decided: more than have room there do not compile. */
#define WAIT(ms) ((ms) + 0 * sizeof(struct { _Static_assert((ms) >= 0 && (ms) <= MILLISECONDS, "a wait is 0 to 524,287 ms"); char none; }))
enum {
    DONE = 0x01,        /* the final code of a command that did what it was to do */
    MOST_ATTEMPTS = 600, /* ten minutes of a second each: a drive that loads and calibrates takes a few */
    SCSI_ACA_ACTIVE = 0x30,
    FILEMARK_EOM_ILI = 0xe0 /* of byte 2 of fixed sense data */
};

APART u64 by_status(const struct context *c);
APART u64 by_scsi_status(const struct context *c);
APART u64 by_sense(const struct context *c);
APART u64 recovered(const struct context *c);
APART u64 not_ready(const struct context *c);
APART u64 unit_attention(const struct context *c);

u64 policy(struct context *c, u64 freeze)
{
    u64 decided = by_status(c);
    if (!(decided & SUCCEEDS)) {
        if (c->attempts > MOST_ATTEMPTS)
            decided = FAILS;
        if (decided & COUNTS && c->retries == 0)
            decided = FAILS;
    }
    u64 wait = decided & MILLISECONDS;
    if (freeze) {
        if (wait)
            release_after(freeze, wait);
        else
            release(freeze);
    }
    if (decided & SUCCEEDS)
        finish(DONE);
    else if (decided & FAILS)
        finish(c->status & STATUS_CODE);
    else
        requeue(decided & COUNTS ? 1 : 0);
    return decided;
}

APART u64 by_status(const struct context *c)
{
    u32 status = c->status & STATUS_CODE;
    if (status == CAM_SCSI_STATUS_ERROR)
        return by_scsi_status(c);
    /* the transport has not sent it */
    if (status == CAM_BUSY)
        return WAIT(100);
    if (status == CAM_REQUEUE_REQ)
        return 0;
    /* the drive did not answer its selection, so it has no command; a drive that is switched off never will */
    if (status == CAM_SEL_TIMEOUT)
        return WAIT(1000) | COUNTS;
    /* A time-out, an abort and a reset come at any moment of a command. After a reset the position is not known either. */
    return FAILS;
}

/* SAM: with these three the command has not entered the task set. */
APART u64 by_scsi_status(const struct context *c)
{
    switch (c->scsi) {
    case SCSI_CHECK_CONDITION:
        return by_sense(c);
    case SCSI_BUSY:
        return WAIT(1000);
    case SCSI_TASK_SET_FULL:
        return WAIT(100);
    case SCSI_ACA_ACTIVE:
        return WAIT(20);
    /* Another host has the drive (RESERVATION CONFLICT), and may have moved the tape. A task that was aborted (TASK ABORTED) may have
       been begun. */
    default:
        return FAILS;
    }
}

APART u64 by_sense(const struct context *c)
{
    u64 code = c->sense[0] & 0x7f;
    /* A deferred error (71, 73) says that data of an earlier command are not on the tape, though that command had succeeded: this has to be
       told, and nothing may be written after it. Other codes say nothing that is known. */
    if (c->sense_length == 0 || (code != 0x70 && code != 0x72))
        return FAILS;
    if (c->key == SENSE_RECOVERED_ERROR)
        return recovered(c);
    if (c->key == SENSE_NOT_READY)
        return not_ready(c);
    if (c->key == SENSE_UNIT_ATTENTION)
        return unit_attention(c);
    /* Medium and hardware errors come after the tape has moved. An aborted command may have moved it. A filemark, the end of the tape and a
       block of another length (NO SENSE, VOLUME OVERFLOW, BLANK CHECK) are what the reader waits for. */
    return FAILS;
}

/* The command was carried out. Its sense data are told if they have more than that: a filemark, the end of the medium or a wrong
   length, in byte 2 of fixed sense data; in a descriptor, if there is any. */
APART u64 recovered(const struct context *c)
{
    u64 more = (c->sense[0] & 0x7f) == 0x70 ? c->sense[2] & FILEMARK_EOM_ILI : c->sense[7];
    return more ? FAILS : SUCCEEDS;
}

/* A drive that is not ready executes nothing that needs the medium. It is waited for if it will be ready by itself. If the medium was
   changed meanwhile, a unit attention says so before anything is executed. */
APART u64 not_ready(const struct context *c)
{
    if (c->asc != 0x04)
        return FAILS;
    switch (c->ascq) {
    case 0x01: /* becoming ready */
    case 0x07: /* operation in progress */
    case 0x09: /* self-test in progress */
    case 0x0a: /* the asymmetric access state changes */
    case 0x1a: /* START STOP UNIT in progress */
        return WAIT(1000);
    default:
        return FAILS;
    }
}

/* The command was not executed. It is tried again if what happened leaves the medium, its position and the way of writing as they
   were. After a change of the medium (28), a reset (29), another's mode parameters, reservation or keys (2a, the rest) and all that
   is not listed here it would be executed elsewhere or otherwise. */
APART u64 unit_attention(const struct context *c)
{
    if (c->asc == 0x2a)
        switch (c->ascq) {
        case 0x02: /* log parameters changed */
        case 0x06: /* asymmetric access state changed */
        case 0x08: /* priority changed */
        case 0x10: /* timestamp changed */
            return 0;
        default:
            return FAILS;
        }
    if (c->asc == 0x3f && (c->ascq == 0x03 || c->ascq == 0x0e)) /* INQUIRY data or reported LUNs changed */
        return 0;
    return FAILS;
}
