/* Recovers the commands of a disk behind a fabric with two paths. What was seen of a command goes into one word of flags by functions
   of its own, each for one source of facts; then one function decides, and one carries out. Table 0 has failures by queue, table 1
   times by queue, table 2 counts by sense key. */
#include "../policies/camr.h"
#define APART static __attribute__((noinline))

/* What is decided: a time, and what is done beside it. */
enum { MILLISECONDS = 0xffff, COUNTS = 1 << 16, FAILS = 1 << 17, TELLS = 1 << 18, HOLDS_ALL = 1 << 19, LOWERS = 1 << 20 };
/* How grave it is. */
enum grave { HARMLESS, PASSING, LASTING, FATAL };

struct seen {
    u64 queue;
    u64 status;
    u64 failures;
    u64 since;
    u64 same_key;
    u64 waiting;
};

APART void look(struct seen *seen, const struct context *c);
APART u64 decide(const struct seen *seen, const struct context *c);
APART u64 by_sense(const struct context *c);
APART u64 not_ready(u64 asc, u64 ascq);
APART u64 unit_attention(u64 asc, u64 ascq);
APART u64 hardware(u64 asc, u64 ascq);
APART u64 by_scsi(const struct context *c);
APART u64 how_grave(u64 status);
APART void tell(const struct seen *seen, u64 decided);

u64 policy(struct context *c, u64 freeze) {
    struct seen seen;
    look(&seen, c);
    u64 decided = decide(&seen, c);
    if (decided & TELLS)
        tell(&seen, decided);
    if (decided & HOLDS_ALL) {
        u64 other = freeze_queue(1);
        if (other)
            release_after(other, 2000);
    }
    if (decided & LOWERS)
        set_openings(1 + (seen.waiting & 7));
    if (freeze) {
        u64 wait = decided & MILLISECONDS;
        if (wait >= 1)
            release_after(freeze, wait);
        else
            release(freeze);
    }
    if (decided & FAILS)
        finish(seen.status & STATUS_CODE);
    else
        requeue(decided & COUNTS ? 1 : 0);
    return decided;
}

/* What is seen: of the queue, and of what came before. */
APART void look(struct seen *seen, const struct context *c) {
    struct queue_counts counts;
    u64 queue = c->queue & 15;
    u64 key = c->key & 15;
    u64 time = now();
    u64 last = table_put(1, queue, time);
    queue_info(&counts);
    seen->queue = queue;
    seen->status = c->status & STATUS_CODE;
    seen->since = time - last;
    seen->waiting = counts.waiting;
    if (last == 0)
        seen->since = 60000;
    if (seen->since > 60000)
        table_put(0, queue, 0);
    seen->failures = table_add(0, queue, 1);
    seen->same_key = c->sense_length ? table_add(2, key, 1) : 0;
}

APART u64 decide(const struct seen *seen, const struct context *c) {
    u64 decided;
    switch (how_grave(seen->status)) {
    case HARMLESS:
        return 0;
    case PASSING:
        decided = 100;
        if (seen->failures > 10)
            decided = 1000;
        if (seen->failures > 100)
            decided = 5000 | TELLS;
        return decided | COUNTS;
    case LASTING:
        decided = 500 | COUNTS | HOLDS_ALL;
        if (seen->since < 1000)
            decided = 2000 | COUNTS | HOLDS_ALL | TELLS;
        if (c->retries == 0)
            decided |= FAILS;
        return decided;
    case FATAL:
        return FAILS | TELLS;
    default:
        break;
    }
    switch (c->scsi) {
    case SCSI_CHECK_CONDITION:
        decided = by_sense(c);
        break;
    default:
        decided = by_scsi(c);
        break;
    }
    if (seen->same_key > 1000)
        decided |= TELLS;
    if (c->retries == 0 && decided & COUNTS)
        decided |= FAILS;
    return decided;
}

/* Of a CAM status; what a device answered has none. */
APART u64 how_grave(u64 status) {
    switch (status) {
    case CAM_REQUEUE_REQ:
    case CAM_REQ_ABORTED:
        return HARMLESS;
    case CAM_BUSY:
    case CAM_CMD_TIMEOUT:
    case CAM_BDR_SENT:
        return PASSING;
    case CAM_SEL_TIMEOUT:
    case CAM_SCSI_BUS_RESET:
        return LASTING;
    case CAM_SCSI_STATUS_ERROR:
        return FATAL + 1;
    default:
        return FATAL;
    }
}

APART u64 by_scsi(const struct context *c) {
    switch (c->scsi) {
    case SCSI_BUSY:
        return 100;
    case SCSI_TASK_SET_FULL:
        return c->attempts > 4 ? 50 | LOWERS : 20;
    case SCSI_RESERVATION_CONFLICT:
        return 250 | COUNTS;
    case 0x30:
        return 20 | TELLS;
    case 0x40:
        return 0;
    default:
        return 100 | COUNTS;
    }
}

APART u64 by_sense(const struct context *c) {
    u32 kind = c->sense[0] & 0x7f;
    if (c->sense_length != 0 && (kind == 0x71 || kind == 0x73))
        return 0;
    switch (c->key) {
    case SENSE_RECOVERED_ERROR:
        return FAILS;
    case SENSE_NOT_READY:
        return not_ready(c->asc, c->ascq);
    case SENSE_MEDIUM_ERROR:
        switch (c->asc) {
        case 0x0c:
            return c->ascq == 2 ? FAILS | TELLS : 20 | COUNTS;
        case 0x10:
        case 0x11:
            return 10 | COUNTS;
        case 0x14:
        case 0x16:
        case 0x31:
            return FAILS | TELLS;
        default:
            return 50 | COUNTS;
        }
    case SENSE_HARDWARE_ERROR:
        return hardware(c->asc, c->ascq);
    case SENSE_UNIT_ATTENTION:
        return unit_attention(c->asc, c->ascq);
    case SENSE_ABORTED_COMMAND:
        switch (c->asc) {
        case 0x47:
        case 0x4b:
            return 1 | COUNTS;
        case 0x4e:
            return 200;
        default:
            return COUNTS;
        }
    case SENSE_ILLEGAL_REQUEST:
    case SENSE_DATA_PROTECT:
        return FAILS;
    default:
        return 100 | COUNTS;
    }
}

APART u64 not_ready(u64 asc, u64 ascq) {
    switch (asc) {
    case 0x04:
        switch (ascq) {
        case 0x00:
            return 500 | COUNTS;
        case 0x01:
            return 2000;
        case 0x02:
            return 250 | COUNTS | TELLS;
        case 0x03:
            return FAILS | TELLS;
        case 0x0a:
        case 0x0b:
        case 0x0c:
            return 1000 | HOLDS_ALL;
        case 0x12:
            return 5000 | TELLS;
        default:
            return 10000;
        }
    case 0x08:
        return 100 | COUNTS;
    case 0x3a:
        switch (ascq) {
        case 0x00:
        case 0x01:
        case 0x02:
            return FAILS | TELLS;
        default:
            return 3000 | COUNTS;
        }
    case 0x44:
        return 500 | COUNTS | TELLS;
    default:
        return 1000 | COUNTS;
    }
}

APART u64 unit_attention(u64 asc, u64 ascq) {
    switch (asc) {
    case 0x28:
        return 1 | TELLS;
    case 0x29:
        switch (ascq) {
        case 0x00:
        case 0x01:
        case 0x02:
            return 100 | HOLDS_ALL;
        case 0x03:
        case 0x04:
            return 20;
        case 0x07:
            return 250;
        default:
            return 50;
        }
    case 0x2a:
        switch (ascq) {
        case 0x01:
        case 0x09:
            return 1 | TELLS;
        case 0x03:
        case 0x05:
            return 100;
        default:
            return 10;
        }
    case 0x38:
        return 500 | TELLS;
    case 0x3f:
        return ascq == 0x0e ? 10 | TELLS : 10;
    default:
        return 10;
    }
}

APART u64 hardware(u64 asc, u64 ascq) {
    switch (asc) {
    case 0x08:
        switch (ascq) {
        case 0x00:
        case 0x01:
            return 100 | COUNTS;
        case 0x02:
        case 0x03:
            return 200 | COUNTS | TELLS;
        default:
            return FAILS;
        }
    case 0x15:
        return ascq ? FAILS | TELLS : 50 | COUNTS;
    case 0x3e:
        return ascq == 1 ? FAILS | TELLS : 1000 | COUNTS;
    case 0x44:
        return 500 | COUNTS | TELLS;
    default:
        return FAILS | TELLS;
    }
}

/* Four words into the history. */
APART void tell(const struct seen *seen, u64 decided) {
    u64 words[4];
    words[0] = decided;
    words[1] = seen->queue << 32 | seen->status;
    words[2] = seen->failures;
    words[3] = seen->since;
    trace(words, sizeof words);
}
