/* A table of sense codes by nested switches: how long the queue is left alone, and whether a retry is used up. */
#include "../policies/camr.h"
enum { COUNTS = 1 << 20, GIVES_UP = 1 << 21, MILLISECONDS = 0x3fff };
u64 policy(struct context *c, u64 freeze) {
    u64 decided;
    switch (c->key) {
    case SENSE_RECOVERED_ERROR:
        decided = GIVES_UP;
        break;
    case SENSE_NOT_READY:
        switch (c->asc) {
        case 0x04:
            switch (c->ascq) {
            case 0x00:
                decided = 500 | COUNTS;
                break;
            case 0x01:
                decided = 2000;
                break;
            case 0x02:
                decided = 100 | COUNTS;
                break;
            case 0x03:
                decided = GIVES_UP;
                break;
            case 0x04:
            case 0x05:
            case 0x06:
            case 0x07:
            case 0x08:
            case 0x09:
                decided = 10000;
                break;
            default:
                decided = 250 | COUNTS;
                break;
            }
            break;
        case 0x3a:
            decided = c->ascq < 3 ? GIVES_UP : 1000 | COUNTS;
            break;
        case 0x3e:
            decided = c->ascq == 1 ? GIVES_UP : 3000 | COUNTS;
            break;
        default:
            decided = 1000 | COUNTS;
            break;
        }
        break;
    case SENSE_MEDIUM_ERROR:
        switch (c->asc) {
        case 0x11:
            decided = c->retries > 2 ? 10 | COUNTS : GIVES_UP;
            break;
        case 0x14:
        case 0x31:
            decided = GIVES_UP;
            break;
        default:
            decided = 50 | COUNTS;
            break;
        }
        break;
    case SENSE_HARDWARE_ERROR:
        switch (c->asc) {
        case 0x08:
            switch (c->ascq) {
            case 0x00:
            case 0x01:
                decided = 100 | COUNTS;
                break;
            case 0x02:
                decided = 200 | COUNTS;
                break;
            default:
                decided = GIVES_UP;
                break;
            }
            break;
        case 0x44:
            decided = 500 | COUNTS;
            break;
        default:
            decided = GIVES_UP;
            break;
        }
        break;
    case SENSE_UNIT_ATTENTION:
        switch (c->asc) {
        case 0x28:
        case 0x2a:
            decided = 1;
            break;
        case 0x29:
            decided = c->ascq <= 4 ? 20 : 200;
            break;
        case 0x3f:
            switch (c->ascq) {
            case 0x03:
            case 0x0e:
                decided = 5;
                break;
            default:
                decided = 15;
                break;
            }
            break;
        default:
            decided = 10;
            break;
        }
        break;
    case SENSE_ABORTED_COMMAND:
        decided = c->asc == 0x47 || c->asc == 0x4b ? 1 | COUNTS : 100 | COUNTS;
        break;
    case SENSE_ILLEGAL_REQUEST:
    case SENSE_DATA_PROTECT:
        decided = GIVES_UP;
        break;
    default:
        decided = 100 | COUNTS;
        break;
    }
    if (freeze) {
        u64 wait = decided & MILLISECONDS;
        if (wait)
            release_after(freeze, wait);
        else
            release(freeze);
    }
    if (decided & GIVES_UP)
        finish(c->status & STATUS_CODE);
    else
        requeue(decided & COUNTS ? 1 : 0);
    return decided;
}
