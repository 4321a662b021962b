/*
 * The exports of the library for C without an engine, for the load of libiscsi alone: a queue starts what was submitted first, and a
 * failed command is tried again three times and then given up. Nothing is frozen, timed or recorded. examples/iscsi/transport.c, linked
 * with this in place of libcamr_c.a, sends the same commands and compares the same bytes.
 */
#include "camr_engine.h"

#include <stdio.h>
#include <string.h>

enum { QUEUES = 4, OPENINGS = 32, FAILURES = 4, CCBS = 1 << 16 };

struct camr_engine {
    struct { uint32_t waiting[CCBS], first, last, active; } queues[QUEUES];
    struct { uint32_t queue, failures; } ccbs[CCBS];
    uint32_t next, failed, live;
    uint64_t records, taken;
};
struct camr_run { uint32_t ccb; };

static camr_engine engine_alone;
static camr_run run_alone;

static void wait_again(camr_engine *engine, uint32_t ccb)
{
    uint32_t queue = engine->ccbs[ccb % CCBS].queue;
    engine->queues[queue].waiting[engine->queues[queue].last++ % CCBS] = ccb;
}

uint32_t camr_raw_open(const uint8_t *manifest, size_t length, camr_engine **engine, uint8_t *fault, size_t fault_length, size_t *written)
{
    (void)manifest, (void)length, (void)fault, (void)fault_length;
    memset(&engine_alone, 0, sizeof engine_alone);
    engine_alone.next = 1;
    *engine = &engine_alone;
    *written = 0;
    return CAMR_DONE;
}

void camr_raw_close(camr_engine **engine) { *engine = NULL; }

uint32_t camr_raw_submit(camr_engine **engine, uint32_t queue, uint32_t priority, uint32_t retries, uint32_t class_, uint32_t *ccb)
{
    (void)priority, (void)retries, (void)class_;
    *ccb = (*engine)->next++;
    (*engine)->ccbs[*ccb % CCBS].queue = queue;
    (*engine)->ccbs[*ccb % CCBS].failures = 0;
    wait_again(*engine, *ccb);
    return CAMR_DONE;
}

uint32_t camr_raw_dispatch(camr_engine **engine, uint32_t queue, uint32_t *ccb, uint32_t *advice)
{
    if ((*engine)->queues[queue].active == OPENINGS) return CAMR_NO_OPENING;
    *ccb = (*engine)->queues[queue].waiting[(*engine)->queues[queue].first++ % CCBS];
    *advice = CAMR_ADVICE_NONE;
    (*engine)->queues[queue].active++;
    (*engine)->live++;
    return CAMR_DONE;
}

uint32_t camr_raw_withdraw(camr_engine **engine, uint32_t ccb) { return (void)engine, (void)ccb, CAMR_DONE; }

uint32_t camr_raw_complete(camr_engine **engine, uint32_t ccb, uint8_t status, uint8_t scsi, const uint8_t *sense, size_t sense_length,
                           camr_run **run, bool *started)
{
    (void)scsi, (void)sense, (void)sense_length;
    (*engine)->queues[(*engine)->ccbs[ccb % CCBS].queue].active--;
    (*engine)->live--;
    *started = status != CAMR_REQ_CMP;
    if (!*started) return CAMR_DONE;
    run_alone.ccb = ccb;
    *run = &run_alone;
    return CAMR_DONE;
}

uint32_t camr_raw_drive(camr_engine **engine, camr_run **run, uint64_t *r0, bool *ended, uint32_t *fate, uint8_t *code)
{
    (*engine)->failed = ++(*engine)->ccbs[(*run)->ccb % CCBS].failures;
    *fate = (*engine)->failed < FAILURES ? CAMR_REQUEUED : CAMR_FINISHED;
    *code = *fate == CAMR_FINISHED ? CAMR_SCSI_STATUS_ERROR : 0;
    if (*fate == CAMR_REQUEUED) wait_again(*engine, (*run)->ccb);
    (*engine)->records++;
    *r0 = 0;
    *ended = true;
    return CAMR_DONE;
}

uint32_t camr_raw_take(camr_engine **engine, uint8_t *place, size_t length, size_t *written)
{
    *written = 0;
    if ((*engine)->taken == (*engine)->records) return CAMR_DONE;
    (*engine)->taken = (*engine)->records;
    *written = (size_t)snprintf((char *)place, length, "advance 1 1 helper %s = 0\n", (*engine)->failed < FAILURES ? "4" : "5 0c");
    return CAMR_DONE;
}

uint32_t camr_raw_trace_end(camr_engine **engine, uint8_t *place, size_t length, size_t *written)
{
    (void)engine, (void)place, (void)length;
    *written = 0;
    return CAMR_DONE;
}

void camr_raw_totals(camr_engine **engine, camr_totals_t *sums)
{
    camr_totals_t all = {(*engine)->records, 0, (*engine)->live, 0};
    *sums = all;
}

static uint32_t no_freeze(uint32_t *freeze)
{
    *freeze = 1;
    return CAMR_DONE;
}

uint32_t camr_raw_clock(camr_engine **engine, uint64_t reading, uint32_t *removed)
{
    (void)engine, (void)reading;
    *removed = 0;
    return CAMR_DONE;
}

bool camr_raw_next_due(camr_engine **engine, uint64_t *reading)
{
    (void)engine, (void)reading;
    return false;
}

uint32_t camr_raw_guest_freeze(camr_engine **engine, uint32_t queue, uint32_t guest, uint32_t *freeze)
{
    (void)engine, (void)queue, (void)guest;
    return no_freeze(freeze);
}

uint32_t camr_raw_guest_freeze_controller(camr_engine **engine, uint32_t controller, uint32_t guest, uint32_t *freeze)
{
    (void)engine, (void)controller, (void)guest;
    return no_freeze(freeze);
}

uint32_t camr_raw_guest_release(camr_engine **engine, uint32_t freeze, uint32_t *left)
{
    (void)engine, (void)freeze;
    *left = 0;
    return CAMR_DONE;
}

void camr_raw_run_free(camr_run **run) { *run = NULL; }

/* The journal is a new one, and its segment keeps what is taken. */
uint32_t camr_raw_recover(const uint8_t *manifest, size_t length, const uint8_t *text, size_t text_length, camr_engine **engine,
                          uint8_t *fault, size_t fault_length, size_t *written)
{
    (void)manifest, (void)length, (void)text, (void)text_length, (void)engine, (void)fault, (void)fault_length;
    *written = 0;
    return CAMR_FAULTY;
}

uint32_t camr_raw_succeed(camr_engine **engine, const uint8_t *manifest, size_t length, bool fresh, uint8_t *fault, size_t fault_length,
                          size_t *written)
{
    (void)engine, (void)manifest, (void)length, (void)fresh, (void)fault, (void)fault_length;
    *written = 0;
    return CAMR_RUNS_LIVE;
}

uint32_t camr_raw_renew(camr_engine **engine, bool fresh)
{
    (void)engine, (void)fresh;
    return CAMR_RUNS_LIVE;
}

uint32_t camr_raw_carried(camr_engine **engine, uint64_t from, uint8_t *place, size_t length, size_t *written, uint64_t *next)
{
    (void)engine, (void)place, (void)length;
    *written = 0;
    *next = from;
    return CAMR_TAKEN;
}

uint32_t camr_raw_trace(camr_engine **engine, uint64_t from, uint8_t *place, size_t length, size_t *written, uint64_t *next)
{
    (void)engine, (void)place, (void)length;
    *written = 0;
    *next = from;
    return CAMR_DONE;
}

bool camr_raw_take_run(camr_engine **engine, camr_run **run)
{
    (void)engine, (void)run;
    return false;
}

void camr_raw_ccbs(camr_engine **engine, uint32_t from, uint32_t *numbers, size_t numbers_length, uint32_t *states, size_t states_length,
                   size_t *count)
{
    (void)engine, (void)from, (void)numbers, (void)numbers_length, (void)states, (void)states_length;
    *count = 0;
}

bool camr_raw_result_text(uint32_t result, uint8_t *place, size_t length, size_t *written)
{
    *written = (size_t)snprintf((char *)place, length, "result %u", (unsigned)result);
    return true;
}
