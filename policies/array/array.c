/* Recovers the commands of an array whose controller many hosts share, and spares it while it is busy. TASK SET FULL (QUEUE FULL in SCSI-2)
   is said of one logical unit: its queue gets as many openings as the unit has taken, and rests. BUSY is said of the controller: all
   queues under it rest. Each further time in a row the rest is twice as long. README.md has the table.

   Table 0 has eight words for each of 64 queues, of which five are used. */
#include "../../examples/policies/camr.h"
#define APART static __attribute__((noinline))

/* What is decided: how many milliseconds the queue stays frozen, at most 524,287, and these beside it. */
enum {
    MILLISECONDS = 0x7ffff,
    COUNTS = 1 << 20,
    FAILS = 1 << 21,
    SUCCEEDS = 1 << 22,
    QUEUE_IS_FULL = 1 << 23,
    CONTROLLER_IS_BUSY = 1 << 24
};
/* So many milliseconds as a part of what is decided: more than have room there do not compile. */
#define WAIT(ms) ((ms) + 0 * sizeof(struct { _Static_assert((ms) >= 0 && (ms) <= MILLISECONDS, "a wait is 0 to 524,287 ms"); char none; }))
enum {
    DONE = 0x01,        /* the final code of a command that did what it was to do */
    MOST_ATTEMPTS = 60, /* three minutes of rests, when a controller stays busy */
    SCSI_ACA_ACTIVE = 0x30,
    SCSI_TASK_ABORTED = 0x40,
    SENSE_MISCOMPARE = 0xe
};

/* The table, and the words of a queue. The failures that come before a rest is over are one burst: they were all started before it. */
enum {
    QUEUES = 0,
    LEVEL = 0,   /* how many bursts came in a row, 1 to 6, or 0 */
    UNTIL = 1,   /* when the last rest ends, in milliseconds */
    LEAST = 2,   /* how few openings the last burst may leave: half of those before it */
    MOST = 3,    /* the openings before they were first changed, or 0 */
    CHANGED = 4, /* when the openings were last changed */
    WORDS = 8
};
enum {
    QUEUE_RESTS = 20,       /* milliseconds at first; 640 from the sixth in a row on */
    CONTROLLER_RESTS = 100, /* at first; 3,200 from the sixth on */
    MOST_DOUBLINGS = 5,
    FORGIVEN_IN = 1000, /* each such time without a failure takes one doubling away, */
    OPENED_IN = 1000,   /* and is worth one opening, which the next failure of any kind gives back */
    LEAST_OPENINGS = 4  /* since openings are given back at failures alone, some commands stay under way */
};

APART u64 rest(const struct context *c, u64 first);
APART void open_again(const struct context *c);
APART void close_to_what_was_taken(const struct context *c);
APART void change_openings(u64 words, u64 openings);
APART u64 final_code(const struct context *c, u64 decided);
APART u64 by_status(const struct context *c);
APART u64 by_scsi_status(const struct context *c);
APART u64 by_sense(const struct context *c);
APART u64 not_ready(const struct context *c);

u64 policy(struct context *c, u64 freeze)
{
    u64 decided = by_status(c);
    u64 code = final_code(c, decided) & STATUS_CODE;
    u64 wait = decided & MILLISECONDS;
    open_again(c);
    if (decided & QUEUE_IS_FULL) {
        close_to_what_was_taken(c);
        wait = rest(c, QUEUE_RESTS);
    }
    if (decided & CONTROLLER_IS_BUSY) {
        wait = rest(c, CONTROLLER_RESTS);
        /* one freeze is enough for all that are refused at one time */
        if (controller_frozen() == 0) {
            u64 all = freeze_controller();
            if (all)
                release_after(all, wait);
        }
    }
    if (freeze) {
        if (wait)
            release_after(freeze, wait);
        else
            release(freeze);
    }
    if (code)
        finish(code);
    else
        requeue(decided & COUNTS ? 1 : 0);
    return decided;
}

/* How many milliseconds the queue rests, or the controller: twice as long with each burst, and for a while as long as ever if another
   failure of the same burst comes. */
APART u64 rest(const struct context *c, u64 first)
{
    u64 words = (c->queue & 63) * WORDS;
    u64 time = now();
    u64 level = table_get(QUEUES, words + LEVEL);
    u64 until = table_get(QUEUES, words + UNTIL);
    u64 doublings = level - 1;
    if (time >= until) {
        u64 forgiven = (time - until) / FORGIVEN_IN;
        doublings = level > forgiven ? level - forgiven : 0;
    }
    if (doublings > MOST_DOUBLINGS)
        doublings = MOST_DOUBLINGS;
    table_put(QUEUES, words + LEVEL, doublings + 1);
    first <<= doublings;
    table_put(QUEUES, words + UNTIL, time + first);
    return first;
}

/* Gives back one opening for each second since they were last changed. No policy runs at a success, so that this waits for the next failure. */
APART void open_again(const struct context *c)
{
    u64 words = (c->queue & 63) * WORDS;
    u64 most = table_get(QUEUES, words + MOST) & 0xff;
    u64 more = (now() - table_get(QUEUES, words + CHANGED)) / OPENED_IN;
    if (most == 0 || more == 0)
        return;
    struct queue_counts counts;
    queue_info(&counts);
    u64 now_open = counts.openings & 0xff;
    if (now_open >= most)
        return;
    u64 room = most - now_open;
    if (more > room)
        more = room;
    change_openings(words, now_open + more);
}

/* As many openings as the unit has commands, for so many it has taken; one fewer at least, and half of those before the burst at most. */
APART void close_to_what_was_taken(const struct context *c)
{
    u64 words = (c->queue & 63) * WORDS;
    struct queue_counts counts;
    queue_info(&counts);
    u64 now_open = counts.openings & 0xff;
    if (now() >= table_get(QUEUES, words + UNTIL))
        table_put(QUEUES, words + LEAST, now_open / 2);
    u64 least = table_get(QUEUES, words + LEAST) & 0xff;
    if (least < LEAST_OPENINGS)
        least = LEAST_OPENINGS;
    u64 openings = counts.active & 0xff;
    if (openings >= now_open)
        openings = now_open - 1;
    if (openings < least)
        openings = least;
    if (openings >= now_open)
        return;
    if (table_get(QUEUES, words + MOST) == 0)
        table_put(QUEUES, words + MOST, now_open);
    change_openings(words, openings);
}

APART void change_openings(u64 words, u64 openings)
{
    openings &= 0xff;
    set_openings(openings ? openings : 1);
    table_put(QUEUES, words + CHANGED, now());
}

/* The code with which the command is finished, or 0 if it is tried again. */
APART u64 final_code(const struct context *c, u64 decided)
{
    if (decided & SUCCEEDS)
        return DONE;
    if (decided & FAILS || c->attempts > MOST_ATTEMPTS)
        return c->status;
    return decided & COUNTS && c->retries == 0 ? c->status : 0;
}

/* By the CAM status: what the transport saw. */
APART u64 by_status(const struct context *c)
{
    switch (c->status & STATUS_CODE) {
    case CAM_SCSI_STATUS_ERROR:
        return by_scsi_status(c);
    /* the host adapter or the port has no room */
    case CAM_BUSY:
        return CONTROLLER_IS_BUSY;
    /* a command that times out at a busy controller is late: others are not sent after it at once */
    case CAM_CMD_TIMEOUT:
        return WAIT(1000) | COUNTS;
    case CAM_SEL_TIMEOUT:
        return WAIT(500) | COUNTS;
    /* a neighbour's reset took it along, or the transport asks for another try */
    case CAM_SCSI_BUS_RESET:
    case CAM_BDR_SENT:
        return WAIT(100);
    case CAM_REQUEUE_REQ:
        return 0;
    /* the host aborted it (CAM_REQ_ABORTED) */
    default:
        return FAILS;
    }
}

/* By the SCSI status: what the unit answered. */
APART u64 by_scsi_status(const struct context *c)
{
    switch (c->scsi) {
    case SCSI_CHECK_CONDITION:
        return by_sense(c);
    case SCSI_BUSY:
        return CONTROLLER_IS_BUSY;
    case SCSI_TASK_SET_FULL:
        return QUEUE_IS_FULL;
    case SCSI_ACA_ACTIVE:
        return WAIT(20);
    case SCSI_TASK_ABORTED:
        return 0;
    case SCSI_RESERVATION_CONFLICT:
        return FAILS;
    default:
        return WAIT(100) | COUNTS;
    }
}

APART u64 by_sense(const struct context *c)
{
    u64 code = c->sense[0] & 0x7f;
    /* a deferred error is that of an earlier command: this one was not executed */
    if (c->sense_length != 0 && (code == 0x71 || code == 0x73))
        return 0;
    switch (c->key) {
    case SENSE_RECOVERED_ERROR:
        return SUCCEEDS;
    case SENSE_NOT_READY:
        return not_ready(c);
    case SENSE_UNIT_ATTENTION:
        return 0;
    case SENSE_ABORTED_COMMAND:
        return WAIT(20) | COUNTS;
    case SENSE_ILLEGAL_REQUEST:
    case SENSE_DATA_PROTECT:
    case SENSE_MISCOMPARE:
        return FAILS;
    default:
        return WAIT(100) | COUNTS;
    }
}

/* 04/0a: the ports change their asymmetric access states. 04/01, 04/07, 04/14: the unit becomes ready by itself. */
APART u64 not_ready(const struct context *c)
{
    if (c->asc == 0x04 && (c->ascq == 0x0a || c->ascq == 0x01 || c->ascq == 0x07 || c->ascq == 0x14))
        return WAIT(1000);
    return WAIT(250) | COUNTS;
}
