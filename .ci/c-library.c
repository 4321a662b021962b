/* Tries each call of include/camr_engine.h, nulls and lengths too, and ends with the number of the line where one answers otherwise. */
#include <stdbool.h>
#include <stdio.h>
#include <stdlib.h>
#include <string.h>
#include <sys/resource.h>

/* How many blocks are given before one is refused; with a number below 0 none is. */
static long before_refusal = -1;

static bool is_refused(void) { return before_refusal >= 0 && before_refusal-- == 0; }
static void *tried_malloc(size_t n) { return is_refused() ? NULL : malloc(n); }
static void *tried_realloc(void *p, size_t n) { return is_refused() ? NULL : realloc(p, n); }

#define malloc(n) tried_malloc(n)
#define realloc(p, n) tried_realloc(p, n)
#define CAMR_ENGINE_HEAP
#include "camr_engine.h"

#define WANT(fact) do { if (!(fact)) { fprintf(stderr, "c-library.c:%d: not so: %s\n", __LINE__, #fact); exit(1); } } while (0)

/* What a start reports, and what a run has done with its CCB. */
static uint32_t advice, fate;
static uint8_t code;

static const char manifest[] =
    "version = 2\n"
    "controllers = 1\n"
    "[[queue]]\n"
    "openings = 1\n"
    "controller = 0\n"
    "program = \"p1\"\n"
    "[[program]]\n"
    "name = \"p1\"\n"
    "asm = \"\"\"\n"
    "jeq r2, 0, requeue\n"
    "mov64 r1, r2\n"
    "call 2\n"
    "requeue:\n"
    "mov64 r1, 1\n"
    "call 4\n"
    "mov64 r0, 7\n"
    "exit\n"
    "\"\"\"\n";

static const char trace[] =
    "camr-trace 2\n"
    "submit 0 0 1 = ccb 1\n"
    "dispatch 0 = ccb 1\n"
    "complete 1 0b 00 - = run 1 freeze 1\n"
    "advance 1 3 helper 2 = 0\n"
    "advance 1 2 helper 4 = 0\n"
    "advance 1 2 exit = 7\n";

static camr_engine *opened(void)
{
    camr_engine *engine;
    WANT(camr_open(manifest, sizeof manifest - 1, &engine, NULL, 0) == CAMR_DONE && engine != NULL);
    return engine;
}

static camr_run *failed(camr_engine *engine)
{
    uint32_t ccb;
    camr_run *run;
    WANT(camr_submit(engine, 0, 0, 1, 0, &ccb) == CAMR_DONE && camr_dispatch(engine, 0, &ccb, &advice) == CAMR_DONE);
    WANT(camr_complete(engine, ccb, CAMR_CMD_TIMEOUT, 0, NULL, 0, &run) == CAMR_DONE && run != NULL);
    return run;
}

static void recovers(void)
{
    camr_engine *engine = opened();
    camr_run *run = failed(engine);
    uint32_t number, freeze;
    uint64_t r0, next;
    bool ended;
    char place[512];
    size_t written;
    camr_totals_t totals;
    WANT(camr_run_numbers(run, &number, &freeze) == CAMR_DONE && number == 1 && freeze == 1);
    WANT(camr_advance(engine, run, &r0, &ended, &fate, &code) == CAMR_NOT_STRETCHED && !ended);
    WANT(camr_stretch(run) == CAMR_DONE && camr_stretch(run) == CAMR_DONE);
    WANT(camr_advance(engine, run, &r0, &ended, &fate, &code) == CAMR_DONE && !ended && r0 == 0);
    WANT(camr_drive(engine, run, &r0, &ended, &fate, &code) == CAMR_DONE && ended && r0 == 7);
    WANT(camr_stretch(run) == CAMR_SPENT && camr_park(engine, run) == CAMR_SPENT);
    camr_run_free(run);
    WANT(camr_totals(engine, &totals) == CAMR_DONE && totals.history == 6 && totals.frozen == 0 && totals.active == 0 && totals.runs == 0);
    WANT(camr_trace(engine, 0, place, sizeof place, &written, &next) == CAMR_DONE && next == 6);
    WANT(written == sizeof trace - 1 && memcmp(place, trace, written) == 0);
    WANT(camr_trace(engine, 6, place, sizeof place, &written, &next) == CAMR_DONE && written == 0 && next == 6);
    WANT(camr_trace(engine, UINT64_MAX, place, sizeof place, &written, &next) == CAMR_DONE && written == 0);
    WANT(camr_trace(engine, 1, place, 18, &written, &next) == CAMR_NO_ROOM && written == 0 && next == 1);
    WANT(camr_trace(engine, 0, NULL, 0, &written, &next) == CAMR_NO_ROOM);
    WANT(camr_trace_end(engine, place, sizeof place, &written) == CAMR_DONE);
    WANT(written == 12 && memcmp(place, "end 6 0 0 0\n", 12) == 0);
    WANT(camr_take(engine, place, 20, &written) == CAMR_NO_ROOM && written == 0);
    WANT(camr_take(engine, place, 60, &written) == CAMR_DONE && written > 13 && memcmp(place, trace, written) == 0);
    size_t taken = written;
    WANT(camr_trace(engine, 0, place, sizeof place, &written, &next) == CAMR_TAKEN && written == 0 && next == 0);
    WANT(camr_trace(engine, 5, place, sizeof place, &written, &next) == CAMR_DONE && next == 6);
    WANT(camr_take(engine, place, sizeof place, &written) == CAMR_DONE && taken + written == sizeof trace - 1);
    WANT(memcmp(place, trace + taken, written) == 0);
    WANT(camr_take(engine, place, sizeof place, &written) == CAMR_DONE && written == 0);
    WANT(camr_take(engine, NULL, 0, &written) == CAMR_DONE && written == 0);
    WANT(camr_totals(engine, &totals) == CAMR_DONE && totals.history == 6);
    WANT(camr_trace_end(engine, place, sizeof place, &written) == CAMR_DONE && memcmp(place, "end 6 0 0 0\n", 12) == 0);
    camr_close(engine);
}

/* How many records the long history has. */
#ifndef RECORDS
#define RECORDS 1000000
#endif

/* A host that takes each line needs no more memory after all of these records than after ten thousand. */
static void streams(void)
{
    char last[64];
    camr_engine *engine = opened();
    struct rusage usage;
    long early = 0;
    char place[65536];
    size_t written;
    uint32_t removed;
    for (uint64_t reading = 1; reading <= RECORDS; reading++) {
        WANT(camr_clock(engine, reading, &removed) == CAMR_DONE);
        if (reading % 1000 == 0)
            do WANT(camr_take(engine, place, sizeof place, &written) == CAMR_DONE);
            while (written != 0);
        if (reading % 10000 == 0) getrusage(RUSAGE_SELF, &usage);
        if (reading == 10000) early = usage.ru_maxrss;
    }
    WANT(usage.ru_maxrss - early < 1024);
    snprintf(last, sizeof last, "end %d 0 0 0\n", RECORDS);
    WANT(camr_trace_end(engine, place, sizeof place, &written) == CAMR_DONE && written == strlen(last) && memcmp(place, last, written) == 0);
    camr_close(engine);
}

/* A device may report more sense bytes than a completion has: the first 64 are taken. */
static void cuts_sense(void)
{
    static const char before[] = "complete 1 0c 02 ", after[] = " = run 1 freeze 1\n";
    char place[720], want[720];
    uint8_t sense[252];
    uint32_t ccb;
    camr_run *run;
    size_t written, at = sizeof before - 1;
    uint64_t next;
    memcpy(want, before, at);
    for (size_t byte = 0; byte < sizeof sense; byte++) sense[byte] = (uint8_t)(byte + 1);
    for (size_t byte = 0; byte < 64; byte++) at += (size_t)sprintf(want + at, "%02x", sense[byte]);
    memcpy(want + at, after, sizeof after);
    for (size_t length = 64; length <= sizeof sense; length += 94) {
        camr_engine *engine = opened();
        WANT(camr_submit(engine, 0, 0, 0, 0, &ccb) == CAMR_DONE && camr_dispatch(engine, 0, &ccb, &advice) == CAMR_DONE);
        WANT(camr_complete(engine, ccb, CAMR_SCSI_STATUS_ERROR, 2, sense, length, &run) == CAMR_DONE && run != NULL);
        WANT(camr_trace(engine, 2, place, sizeof place, &written, &next) == CAMR_DONE && written == strlen(want));
        WANT(memcmp(place, want, written) == 0);
        camr_run_free(run);
        camr_close(engine);
    }
}

static void refuses(void)
{
    camr_engine *engine = opened();
    uint32_t it, ccb;
    camr_run *run;
    WANT(camr_submit(engine, 1, 0, 0, 0, &it) == CAMR_UNKNOWN && it == 0);
    WANT(camr_dispatch(engine, 0, &it, &advice) == CAMR_NOTHING_WAITS);
    WANT(camr_clock(engine, (uint64_t)1 << 63, &it) == CAMR_LIMIT);
    WANT(camr_clock(engine, 9, &it) == CAMR_DONE && it == 0 && camr_clock(engine, 8, &it) == CAMR_GOES_BACK);
    WANT(camr_submit(engine, 0, 0, 0, 0, &ccb) == CAMR_DONE && camr_dispatch(engine, 0, &ccb, &advice) == CAMR_DONE);
    WANT(camr_submit(engine, 0, 0, 0, 0, &it) == CAMR_DONE && it == 2);
    WANT(camr_dispatch(engine, 0, &ccb, &advice) == CAMR_NO_OPENING);
    WANT(camr_complete(engine, 2, CAMR_REQ_CMP, 0, NULL, 0, &run) == CAMR_NOT_ACTIVE && run == NULL);
    WANT(camr_complete(engine, 3, CAMR_REQ_CMP, 0, NULL, 0, &run) == CAMR_UNKNOWN);
    WANT(camr_complete(engine, 1, 0, 0, NULL, 0, &run) == CAMR_NO_COMPLETION);
    WANT(camr_complete(engine, 1, 0xff, 0, NULL, 0, &run) == CAMR_NO_COMPLETION);
    WANT(camr_complete(engine, 1, CAMR_REQ_CMP, 0, NULL, 0, &run) == CAMR_DONE && run == NULL);
    camr_close(engine);
}

static void freezes(void)
{
    camr_engine *engine = opened();
    uint32_t ccb, one, two, left;
    bool is_due;
    uint64_t reading;
    WANT(camr_submit(engine, 0, 0, 0, 0, &ccb) == CAMR_DONE);
    WANT(camr_guest_freeze(engine, 0, 5, &one) == CAMR_DONE && one == 1);
    WANT(camr_guest_freeze_controller(engine, 0, 5, &two) == CAMR_DONE && two == 2);
    WANT(camr_guest_freeze(engine, 9, 5, &left) == CAMR_UNKNOWN && left == 0);
    WANT(camr_dispatch(engine, 0, &ccb, &advice) == CAMR_FROZEN);
    WANT(camr_guest_release(engine, 1, &left) == CAMR_DONE && left == 0);
    WANT(camr_guest_release(engine, 1, &left) == CAMR_NO_TOKEN);
    WANT(camr_dispatch(engine, 0, &ccb, &advice) == CAMR_CONTROLLER_FROZEN);
    WANT(camr_next_due(engine, &is_due, &reading) == CAMR_DONE && !is_due);
    camr_close(engine);
}

static void parks(void)
{
    camr_engine *engine = opened(), *other = opened();
    camr_run *run = failed(engine), *again, *none;
    uint64_t r0;
    bool ended;
    WANT(camr_stretch(run) == CAMR_DONE && camr_advance(other, run, &r0, &ended, &fate, &code) == CAMR_NOT_OUT);
    WANT(camr_drive(other, run, &r0, &ended, &fate, &code) == CAMR_NOT_OUT && !ended && r0 == 0);
    WANT(camr_park(other, run) == CAMR_NOT_OUT && camr_park(engine, run) == CAMR_DONE);
    WANT(camr_stretch(run) == CAMR_SPENT && camr_drive(engine, run, &r0, &ended, &fate, &code) == CAMR_SPENT && !ended);
    camr_run_free(run);
    WANT(camr_resume(engine, 2, &none) == CAMR_UNKNOWN && none == NULL);
    WANT(camr_resume(engine, 1, &again) == CAMR_DONE && again != NULL);
    WANT(camr_stretch(again) == CAMR_DONE && camr_drive(engine, again, &r0, &ended, &fate, &code) == CAMR_DONE && ended && r0 == 7);
    camr_close(other);
    camr_close(engine);
    camr_run_free(again);
}

/* One queue, under no controller. */
static const char alone[] =
    "version = 1\n"
    "[[queue]]\n"
    "openings = 1\n"
    "program = \"p1\"\n"
    "[[program]]\n"
    "name = \"p1\"\n"
    "asm = \"\"\"\n"
    "jeq r2, 0, requeue\n"
    "mov64 r1, r2\n"
    "call 2\n"
    "requeue:\n"
    "mov64 r1, 1\n"
    "call 4\n"
    "mov64 r0, 7\n"
    "exit\n"
    "\"\"\"\n";

static const char same[] =
    "camr-trace 2 continued\n"
    "numbers 3 2 0\n"
    "clock 9\n"
    "openings 0 1\n"
    "ccb 2 0 0 1 1 active\n"
    "ccb 3 0 0 0 0 waiting\n"
    "freeze 2 controller 0 guest 6\n";

static const char fresh[] =
    "camr-trace 2 continued\n"
    "numbers 2 1 0\n"
    "clock 9\n"
    "openings 0 1\n"
    "ccb 1 0 0 1 1 active\n"
    "ccb 2 0 0 0 0 waiting\n"
    "freeze 1 controller 0 guest 6\n";

/* An engine that ended CCB 1, with CCB 2 active and CCB 3 waiting, whose controller a guest has frozen. */
static camr_engine *held(void)
{
    camr_engine *engine = opened();
    camr_run *run;
    uint32_t it;
    WANT(camr_submit(engine, 0, 0, 1, 0, &it) == CAMR_DONE && camr_dispatch(engine, 0, &it, &advice) == CAMR_DONE && it == 1);
    WANT(camr_complete(engine, 1, CAMR_REQ_CMP, 0, NULL, 0, &run) == CAMR_DONE && run == NULL);
    WANT(camr_submit(engine, 0, 0, 1, 0, &it) == CAMR_DONE && camr_dispatch(engine, 0, &it, &advice) == CAMR_DONE && it == 2);
    WANT(camr_submit(engine, 0, 0, 0, 0, &it) == CAMR_DONE && it == 3);
    WANT(camr_guest_freeze(engine, 0, 5, &it) == CAMR_DONE && camr_guest_release(engine, 1, &it) == CAMR_DONE);
    WANT(camr_guest_freeze_controller(engine, 0, 6, &it) == CAMR_DONE && it == 2);
    WANT(camr_clock(engine, 9, &it) == CAMR_DONE);
    return engine;
}

/* The carried lines are these, in a buffer of any size that has room for each. */
static void has_carried(camr_engine *engine, const char *text, size_t length)
{
    char all[512], place[512];
    size_t written, sum;
    uint64_t next;
    for (size_t room = 37; room < length + 2; room++) {
        memset(place, '#', sizeof place);
        next = sum = 0;
        do {
            WANT(camr_carried(engine, next, place, room, &written, &next) == CAMR_DONE && written <= room);
            WANT(sum + written <= length && place[room] == '#');
            memcpy(all + sum, place, written);
            sum += written;
        } while (written != 0);
        WANT(next == 6 && sum == length && memcmp(all, text, length) == 0);
    }
    WANT(camr_carried(engine, 0, place, 36, &written, &next) == CAMR_NO_ROOM && written == 0 && next == 0);
    WANT(camr_carried(engine, 0, NULL, 0, &written, &next) == CAMR_NO_ROOM);
}

/* The active CCB ends, and the other one starts once the guest's freeze is given back. */
static void goes_on(camr_engine *engine, uint32_t active, uint32_t waiting, uint32_t freeze)
{
    camr_run *run;
    uint32_t it;
    uint64_t next;
    char place[64];
    size_t written;
    WANT(camr_dispatch(engine, 0, &it, &advice) == CAMR_NO_OPENING);
    WANT(camr_carried(engine, 0, place, sizeof place, &written, &next) == CAMR_TAKEN && written == 0 && next == 0);
    WANT(camr_trace(engine, 0, place, sizeof place, &written, &next) == CAMR_DONE && memcmp(place, "dispatch 0 = Q3\n", written) == 0);
    WANT(camr_take(engine, place, sizeof place, &written) == CAMR_DONE && written == 16 && memcmp(place, "dispatch 0 = Q3\n", 16) == 0);
    WANT(camr_complete(engine, active, CAMR_REQ_CMP, 0, NULL, 0, &run) == CAMR_DONE && run == NULL);
    WANT(camr_dispatch(engine, 0, &it, &advice) == CAMR_CONTROLLER_FROZEN);
    WANT(camr_guest_release(engine, freeze, &it) == CAMR_DONE && it == 0);
    WANT(camr_guest_release(engine, freeze, &it) == CAMR_NO_TOKEN);
    WANT(camr_dispatch(engine, 0, &it, &advice) == CAMR_DONE && it == waiting);
}

static void follows(void)
{
    camr_engine *engine = held();
    camr_totals_t totals;
    uint64_t next;
    size_t written;
    char place[64];
    WANT(camr_carried(engine, 0, place, sizeof place, &written, &next) == CAMR_TAKEN && written == 0);
    WANT(camr_succeed(&engine, NULL, 0, false, NULL, 0) == CAMR_DONE && engine != NULL);
    has_carried(engine, same, sizeof same - 1);
    WANT(camr_totals(engine, &totals) == CAMR_DONE && totals.history == 0 && totals.frozen == 1 && totals.active == 1 && totals.runs == 0);
    WANT(camr_succeed(&engine, manifest, sizeof manifest - 1, false, NULL, 0) == CAMR_DONE);
    has_carried(engine, same, sizeof same - 1);
    goes_on(engine, 2, 3, 2);
    camr_close(engine);
    engine = held();
    WANT(camr_succeed(&engine, NULL, 0, true, NULL, 0) == CAMR_DONE);
    has_carried(engine, fresh, sizeof fresh - 1);
    goes_on(engine, 1, 2, 1);
    camr_close(engine);
}

static void follows_not(void)
{
    camr_engine *engine = opened(), *none = NULL;
    camr_run *run = failed(engine);
    char fault[8];
    uint32_t it;
    uint64_t r0;
    bool ended;
    WANT(camr_succeed(&engine, NULL, 0, false, NULL, 0) == CAMR_RUNS_LIVE);
    WANT(camr_succeed(&engine, "\xff", 1, false, NULL, 0) == CAMR_RUNS_LIVE);
    WANT(camr_park(engine, run) == CAMR_DONE && camr_succeed(&engine, NULL, 0, true, NULL, 0) == CAMR_RUNS_LIVE);
    camr_run_free(run);
    WANT(camr_resume(engine, 1, &run) == CAMR_DONE && camr_drive(engine, run, &r0, &ended, &fate, &code) == CAMR_DONE && ended);
    camr_run_free(run);
    WANT(camr_succeed(&engine, NULL, 0, false, NULL, 0) == CAMR_DONE);
    camr_close(engine);
    engine = held();
    WANT(camr_succeed(&engine, "version = 3", 11, false, fault, sizeof fault) == CAMR_FAULTY && strcmp(fault, "M2") == 0);
    WANT(camr_succeed(&engine, "version = 3", 11, false, fault, 1) == CAMR_FAULTY && fault[0] == '\0');
    WANT(camr_succeed(&engine, "", 0, false, NULL, 0) == CAMR_FAULTY);
    WANT(camr_succeed(&engine, "\xff", 1, false, NULL, 0) == CAMR_NOT_UTF8);
    WANT(camr_succeed(&engine, alone, sizeof alone - 1, false, NULL, 0) == CAMR_DOES_NOT_FIT);
    WANT(camr_succeed(NULL, NULL, 0, false, NULL, 0) == CAMR_NULL && camr_succeed(&none, NULL, 0, false, NULL, 0) == CAMR_NULL);
    WANT(camr_succeed(&engine, NULL, 1, false, NULL, 0) == CAMR_NULL && camr_succeed(&engine, NULL, 0, false, NULL, 1) == CAMR_NULL);
    WANT(camr_succeed(&engine, alone, (size_t)PTRDIFF_MAX + 1, false, NULL, 0) == CAMR_TOO_LONG);
    WANT(camr_guest_release(engine, 2, &it) == CAMR_DONE && it == 0);
    WANT(camr_succeed(&engine, alone, sizeof alone - 1, false, NULL, 0) == CAMR_DONE);
    camr_close(engine);
}

static void ccbs(void)
{
    camr_engine *engine = held();
    camr_run *run;
    uint32_t numbers[3] = {9, 9, 9}, states[3] = {9, 9, 9};
    size_t count;
    WANT(camr_ccbs(engine, 0, numbers, states, 3, &count) == CAMR_DONE && count == 2);
    WANT(numbers[0] == 2 && states[0] == CAMR_ACTIVE && numbers[1] == 3 && states[1] == CAMR_WAITING);
    WANT(numbers[2] == 9 && states[2] == 9);
    WANT(camr_ccbs(engine, 3, numbers, states, 1, &count) == CAMR_DONE && count == 1 && numbers[0] == 3 && numbers[1] == 3);
    WANT(camr_ccbs(engine, 2, numbers, states, 1, &count) == CAMR_DONE && count == 1 && numbers[0] == 2);
    WANT(camr_ccbs(engine, 4, numbers, states, 3, &count) == CAMR_DONE && count == 0 && numbers[0] == 2);
    WANT(camr_ccbs(engine, 0, NULL, NULL, 0, &count) == CAMR_DONE && count == 0);
    WANT(camr_ccbs(NULL, 0, numbers, states, 3, &count) == CAMR_NULL && camr_ccbs(engine, 0, numbers, NULL, 3, &count) == CAMR_NULL);
    WANT(camr_ccbs(engine, 0, numbers, states, SIZE_MAX / 4, &count) == CAMR_TOO_LONG && count == 0);
    WANT(camr_complete(engine, 2, CAMR_CMD_TIMEOUT, 0, NULL, 0, &run) == CAMR_DONE && run != NULL);
    WANT(camr_ccbs(engine, 0, numbers, states, 3, &count) == CAMR_DONE && count == 2 && states[0] == CAMR_IN_RECOVERY);
    camr_run_free(run);
    camr_close(engine);
}

/* The front of `trace` up to the first stop of the run, and of a line that is cut off. */
static const char run_out[] =
    "camr-trace 2\n"
    "submit 0 0 1 = ccb 1\n"
    "dispatch 0 = ccb 1\n"
    "complete 1 0b 00 - = run 1 freeze 1\n"
    "advance 1 3 helper 2 = 0\n"
    "advance 1 2 hel";

/* A guest's freeze of the controller, run 1, which is parked, and run 2, which is out. */
static const char two_runs[] =
    "camr-trace 2\n"
    "submit 0 0 1 = ccb 1\n"
    "dispatch 0 = ccb 1\n"
    "complete 1 0b 00 - = run 1 freeze 1\n"
    "advance 1 3 helper 2 = 0\n"
    "advance 1 2 helper 4 = 0\n"
    "dispatch 0 = ccb 1\n"
    "complete 1 0b 00 - = run 2 freeze 2\n"
    "cfreeze 0 6 = freeze 3\n"
    "park 1 = ok\n";

static camr_engine *recovered(const char *text, size_t length)
{
    camr_engine *engine;
    WANT(camr_recover(manifest, sizeof manifest - 1, text, length, &engine, NULL, 0) == CAMR_DONE && engine != NULL);
    return engine;
}

static void has_totals(camr_engine *engine, uint64_t history, uint32_t frozen, uint32_t active, uint32_t runs)
{
    camr_totals_t totals;
    WANT(camr_totals(engine, &totals) == CAMR_DONE);
    WANT(totals.history == history && totals.frozen == frozen && totals.active == active && totals.runs == runs);
}

/* The next run has this number, was started with this freeze, and ends. */
static void takes_run(camr_engine *engine, uint32_t number, uint32_t freeze)
{
    camr_run *run;
    uint32_t its_number, its_freeze;
    uint64_t r0;
    bool ended;
    WANT(camr_take_run(engine, &run) == CAMR_DONE && run != NULL);
    WANT(camr_run_numbers(run, &its_number, &its_freeze) == CAMR_DONE && its_number == number && its_freeze == freeze);
    WANT(camr_drive(engine, run, &r0, &ended, &fate, &code) == CAMR_DONE && ended && r0 == 7 && fate == CAMR_REQUEUED && code == 0);
    camr_run_free(run);
}

static void takes_no_run(camr_engine *engine)
{
    camr_run *run = (camr_run *)engine;
    WANT(camr_take_run(engine, &run) == CAMR_UNKNOWN && run == NULL);
}

static void goes_on_after_a_crash(void)
{
    camr_engine *engine = recovered("camr-trace 2\n", 13);
    char place[512];
    size_t written;
    uint64_t next, r0;
    uint32_t it;
    bool ended;
    camr_run *run;
    has_totals(engine, 0, 0, 0, 0);
    takes_no_run(engine);
    WANT(camr_clock(engine, 5, &it) == CAMR_DONE && camr_take(engine, place, sizeof place, &written) == CAMR_DONE);
    WANT(written == 25 && memcmp(place, "camr-trace 2\nclock 5 = 0\n", 25) == 0);
    camr_close(engine);
    engine = recovered(run_out, sizeof run_out - 1);
    has_totals(engine, 4, 0, 0, 1);
    WANT(camr_trace(engine, 3, place, sizeof place, &written, &next) == CAMR_TAKEN && written == 0);
    takes_run(engine, 1, 1);
    takes_no_run(engine);
    WANT(camr_take(engine, place, sizeof place, &written) == CAMR_DONE && written == 46);
    WANT(memcmp(place, trace + sizeof trace - 1 - 46, 46) == 0);
    camr_close(engine);
    engine = recovered(two_runs, sizeof two_runs - 1);
    has_totals(engine, 9, 2, 0, 2);
    takes_run(engine, 2, 2);
    takes_no_run(engine);
    WANT(camr_resume(engine, 1, &run) == CAMR_DONE && camr_drive(engine, run, &r0, &ended, &fate, &code) == CAMR_DONE && ended);
    camr_run_free(run);
    WANT(camr_guest_release(engine, 3, &it) == CAMR_DONE && it == 0 && camr_guest_release(engine, 3, &it) == CAMR_NO_TOKEN);
    has_totals(engine, 15, 0, 0, 0);
    camr_close(engine);
    engine = recovered(two_runs, sizeof two_runs - 1);
    camr_close(engine);
    snprintf(place, sizeof place, "%send 6 0 0 0\n", trace);
    engine = recovered(place, strlen(place));
    has_totals(engine, 6, 0, 0, 0);
    WANT(camr_succeed(&engine, NULL, 0, false, NULL, 0) == CAMR_DONE);
    camr_close(engine);
    engine = recovered(same, sizeof same - 1);
    has_carried(engine, same, sizeof same - 1);
    takes_no_run(engine);
    goes_on(engine, 2, 3, 2);
    camr_close(engine);
    snprintf(place, sizeof place, "%sclock 10 = 0\n", same);
    engine = recovered(place, strlen(place));
    has_totals(engine, 1, 1, 1, 0);
    WANT(camr_carried(engine, 0, place, sizeof place, &written, &next) == CAMR_TAKEN && written == 0);
    camr_close(engine);
}

/* The text has that fault. */
static void has_fault(const char *text, size_t length, const char *told)
{
    camr_engine *none = (camr_engine *)&before_refusal;
    char fault[16];
    WANT(camr_recover(manifest, sizeof manifest - 1, text, length, &none, fault, sizeof fault) == CAMR_FAULTY);
    WANT(none == NULL && strcmp(fault, told) == 0);
}

#define HAS_FAULT(text, told) has_fault(text, sizeof text - 1, told)

static void goes_not_on(void)
{
    camr_engine *none;
    char fault[4];
    HAS_FAULT("", "X1 at 1");
    HAS_FAULT("camr-trace 2", "X1 at 1");
    HAS_FAULT("camr-trace 2\nclock 5 = 1\nclock\n", "X2 at 3");
    HAS_FAULT("camr-trace 2\nclock 5 = 0\n\0", "X2 at 3");
    HAS_FAULT("camr-trace 1\nclock 5 = 1\n", "X3 at 1");
    HAS_FAULT("camr-trace 2\nclock 5 = 0\nclock 4 = 0\n", "X3 at 3");
    HAS_FAULT("camr-trace 2\nclock 5 = 0\nend 0 0 0 0\n", "X3 at 3");
    HAS_FAULT("camr-trace 2 continued\nnumbers 0 0 0\nclock 0\nopenings 0 1\nword 0 0 5\nclock 5 = 1\n", "X4 at 5");
    WANT(camr_recover("version = 3", 11, "camr", 4, &none, fault, sizeof fault) == CAMR_FAULTY && strcmp(fault, "M2") == 0);
    WANT(camr_recover(manifest, sizeof manifest - 1, "camr", 4, &none, fault, 1) == CAMR_FAULTY && fault[0] == '\0');
    WANT(camr_recover(manifest, sizeof manifest - 1, "camr", 4, &none, fault, sizeof fault) == CAMR_FAULTY && strcmp(fault, "X1 ") == 0);
    WANT(camr_recover(manifest, sizeof manifest - 1, "camr", 4, &none, NULL, 0) == CAMR_FAULTY && none == NULL);
    WANT(camr_recover("\xff", 1, "camr", 4, &none, NULL, 0) == CAMR_NOT_UTF8);
    WANT(camr_recover(manifest, sizeof manifest - 1, "\xff", 1, &none, NULL, 0) == CAMR_NOT_UTF8 && none == NULL);
    WANT(camr_recover(manifest, sizeof manifest - 1, "camr", 4, NULL, NULL, 0) == CAMR_NULL);
    WANT(camr_recover(NULL, 1, "camr", 4, &none, NULL, 0) == CAMR_NULL && camr_recover(manifest, 1, NULL, 1, &none, NULL, 0) == CAMR_NULL);
    WANT(camr_recover(manifest, 1, "camr", (size_t)PTRDIFF_MAX + 1, &none, NULL, 0) == CAMR_TOO_LONG && none == NULL);
    WANT(camr_take_run(NULL, NULL) == CAMR_NULL);
}

/* The text of what an engine counts has each of these lines, which end with a null pointer. */
static void has_lines(camr_engine *engine, const char *const *lines)
{
    static char text[16384], line[128];
    size_t written;
    WANT(camr_metrics(engine, text, sizeof text - 1, &written) == CAMR_DONE && text[written - 1] == '\n');
    text[written] = '\0';
    for (; *lines != NULL; lines++) {
        snprintf(line, sizeof line, "\n%s\n", *lines);
        if (strstr(text, line) == NULL) fprintf(stderr, "c-library.c: the metrics have no line %s\n", *lines);
        WANT(strstr(text, line) != NULL);
    }
}

/* The text finds room in a buffer that is as long as it, and in none that is shorter, which stays as it is. */
static void finds_room(camr_engine *engine)
{
    static char all[16384], place[16384];
    size_t length, written;
    WANT(camr_metrics(engine, NULL, 0, &length) == CAMR_NO_ROOM && length > 1000 && length < sizeof all);
    WANT(camr_metrics(engine, all, length, &written) == CAMR_DONE && written == length);
    WANT(memcmp(all, "# HELP ", 7) == 0 && all[length - 1] == '\n');
    memset(place, '#', sizeof place);
    for (size_t room = 0; room < length; room++) {
        WANT(camr_metrics(engine, place, room, &written) == CAMR_NO_ROOM && written == length);
        for (size_t at = room < 8 ? 0 : room - 8; at < room + 8; at++) WANT(place[at] == '#');
    }
    WANT(camr_metrics(engine, place, sizeof place, &written) == CAMR_DONE && written == length);
    WANT(memcmp(place, all, length) == 0 && place[length] == '#' && place[sizeof place - 1] == '#');
}

/* Where memory is refused nothing is put. */
static void puts_nothing(camr_engine *engine)
{
    static char place[16384];
    size_t written;
    camr_result result;
    long tries = 0;
    memset(place, '#', sizeof place);
    do {
        before_refusal = tries++, written = 9;
        result = camr_metrics(engine, place, sizeof place, &written);
        WANT(result == CAMR_DONE || (result == CAMR_OUT_OF_MEMORY && written == 0 && place[0] == '#'));
    } while (result != CAMR_DONE);
    before_refusal = -1;
    WANT(tries > 1);
}

static void counts(void)
{
    camr_engine *engine = held();
    camr_run *run = NULL;
    char place[512];
    size_t written;
    uint32_t it;
    uint64_t r0;
    bool ended;
    has_lines(engine, (const char *const[]){
        "camr_records_total 10", "camr_calls_refused_total{refusal=\"C1\"} 0", "camr_ccbs_submitted_total{queue=\"0\"} 3", "camr_ccbs_started_total{queue=\"0\"} 2",
        "camr_ccbs_completed_total{queue=\"0\",status=\"01\"} 1", "camr_recoveries_total{queue=\"0\"} 0", "camr_queue_frozen_seconds_total{queue=\"0\"} 0.000",
        "camr_controller_frozen_seconds_total{controller=\"0\"} 0.009", "camr_program_runs_total{program=\"p1\"} 0", "camr_ccbs_active{queue=\"0\"} 1",
        "camr_ccbs_waiting{queue=\"0\"} 1", "camr_queue_freezes{queue=\"0\"} 0", "camr_queue_openings{queue=\"0\"} 1", "camr_controller_freezes{controller=\"0\"} 1",
        "camr_freezes 1", "camr_runs_live 0", "camr_clock_seconds 0.009", NULL});
    finds_room(engine);
    puts_nothing(engine);
    /* what was counted stays where lines are taken and where an engine follows, under other numbers too */
    while (camr_take(engine, place, sizeof place, &written) == CAMR_DONE && written != 0) continue;
    WANT(camr_succeed(&engine, NULL, 0, true, NULL, 0) == CAMR_DONE && camr_succeed(&engine, manifest, sizeof manifest - 1, false, NULL, 0) == CAMR_DONE);
    has_lines(engine, (const char *const[]){
        "camr_records_total 10", "camr_ccbs_submitted_total{queue=\"0\"} 3", "camr_ccbs_active{queue=\"0\"} 1", "camr_freezes 1", "camr_clock_seconds 0.009", NULL});
    WANT(camr_clock(engine, 20, &it) == CAMR_DONE && camr_guest_release(engine, 1, &it) == CAMR_DONE && camr_dispatch(engine, 7, &it, &advice) == CAMR_UNKNOWN);
    WANT(camr_complete(engine, 1, CAMR_SCSI_STATUS_ERROR, 2, "\x70\0\6", 3, &run) == CAMR_DONE && run != NULL);
    has_lines(engine, (const char *const[]){
        "camr_runs_live 1", "camr_queue_freezes{queue=\"0\"} 1", "camr_ccbs_completed_total{queue=\"0\",status=\"0c\"} 1", "camr_recoveries_total{queue=\"0\"} 1",
        "camr_controller_frozen_seconds_total{controller=\"0\"} 0.020", "camr_calls_refused_total{refusal=\"C1\"} 1", NULL});
    WANT(camr_clock(engine, 1020, &it) == CAMR_DONE && camr_stretch(run) == CAMR_DONE && camr_advance(engine, run, &r0, &ended, &fate, &code) == CAMR_DONE && !ended);
    WANT(camr_park(engine, run) == CAMR_DONE);
    camr_run_free(run);
    WANT(camr_resume(engine, 1, &run) == CAMR_DONE && camr_drive(engine, run, &r0, &ended, &fate, &code) == CAMR_DONE && ended);
    camr_run_free(run);
    has_lines(engine, (const char *const[]){
        "camr_records_total 20", "camr_requeues_total{queue=\"0\"} 1", "camr_instructions_total{queue=\"0\"} 7", "camr_program_runs_total{program=\"p1\"} 1",
        "camr_queue_frozen_seconds_total{queue=\"0\"} 1.000", "camr_ccbs_waiting{queue=\"0\"} 2", "camr_ccbs_active{queue=\"0\"} 0", "camr_clock_seconds 1.020", NULL});
    camr_close(engine);
    /* a recovered engine begins to count */
    engine = recovered(two_runs, sizeof two_runs - 1);
    has_lines(engine, (const char *const[]){"camr_records_total 0", "camr_ccbs_submitted_total{queue=\"0\"} 0", "camr_runs_live 2", "camr_freezes 2", NULL});
    takes_run(engine, 2, 2);
    has_lines(engine, (const char *const[]){"camr_records_total 3", "camr_requeues_total{queue=\"0\"} 1", "camr_runs_live 1", NULL});
    camr_close(engine);
}

/* Each block is refused once: what is not recovered leaves nothing, and the next try succeeds. */
static void recovers_short_of_memory(void)
{
    camr_engine *engine;
    camr_result result;
    long tries = 0;
    do {
        before_refusal = tries++;
        result = camr_recover(manifest, sizeof manifest - 1, two_runs, sizeof two_runs - 1, &engine, NULL, 0);
        WANT(result == CAMR_DONE || (result == CAMR_OUT_OF_MEMORY && engine == NULL));
    } while (result != CAMR_DONE);
    before_refusal = 0;
    camr_run *run;
    WANT(tries > 20 && camr_take_run(engine, &run) == CAMR_DONE);
    before_refusal = -1;
    camr_run_free(run);
    camr_close(engine);
}

static void nulls_and_faults(void)
{
    camr_engine *engine = opened(), *none;
    camr_run *run;
    char fault[8];
    uint32_t it;
    uint64_t r0;
    size_t written;
    bool ended;
    WANT(camr_open(manifest, 1, NULL, NULL, 0) == CAMR_NULL && camr_open(NULL, 1, &none, NULL, 0) == CAMR_NULL && none == NULL);
    WANT(camr_open(manifest, (size_t)PTRDIFF_MAX + 1, &none, NULL, 0) == CAMR_TOO_LONG);
    WANT(camr_open("version = 4", 11, &none, fault, sizeof fault) == CAMR_FAULTY && none == NULL && strcmp(fault, "M2") == 0);
    WANT(camr_open("version = 4", 11, &none, fault, 1) == CAMR_FAULTY && fault[0] == '\0');
    WANT(camr_open("\xff", 1, &none, NULL, 0) == CAMR_NOT_UTF8 && camr_open(NULL, 0, &none, NULL, 0) == CAMR_FAULTY);
    WANT(camr_submit(NULL, 0, 0, 0, 0, &it) == CAMR_NULL && camr_submit(engine, 0, 0, 0, 0, NULL) == CAMR_NULL);
    WANT(camr_complete(engine, 1, CAMR_REQ_CMP, 0, NULL, 1, &run) == CAMR_NULL && run == NULL);
    run = (camr_run *)fault, r0 = 9, ended = true;
    WANT(camr_complete(NULL, 1, CAMR_REQ_CMP, 0, NULL, 0, &run) == CAMR_NULL && run == NULL);
    WANT(camr_drive(engine, NULL, &r0, &ended, &fate, &code) == CAMR_NULL && r0 == 0 && !ended);
    run = (camr_run *)fault;
    WANT(camr_resume(NULL, 1, &run) == CAMR_NULL && run == NULL);
    WANT(camr_stretch(NULL) == CAMR_NULL && camr_advance(engine, NULL, &r0, &ended, &fate, &code) == CAMR_NULL);
    WANT(camr_trace(engine, 0, NULL, 9, &written, &r0) == CAMR_NULL);
    written = 9;
    WANT(camr_metrics(NULL, fault, sizeof fault, &written) == CAMR_NULL && written == 0 && camr_metrics(engine, fault, sizeof fault, NULL) == CAMR_NULL);
    WANT(camr_metrics(engine, NULL, 9, &written) == CAMR_NULL && camr_metrics(engine, fault, (size_t)PTRDIFF_MAX + 1, &written) == CAMR_TOO_LONG);
    for (camr_result result = 0; result <= CAMR_DOES_NOT_FIT; result++)
        WANT(camr_result_text(result, fault, sizeof fault, &written) == CAMR_DONE && written >= 4);
    WANT(camr_result_text(25, fault, sizeof fault, &written) == CAMR_UNKNOWN && written == 0);
    camr_run_free(NULL);
    camr_close(NULL);
    camr_close(engine);
}

/* Two queues of version 3: one policy advises the class of its CCB and requeues it, the other one finishes its CCB. */
static const char classed[] =
    "version = 3\n"
    "controllers = 1\n"
    "[[queue]]\n"
    "openings = 1\n"
    "controller = 0\n"
    "program = \"again\"\n"
    "[[queue]]\n"
    "openings = 1\n"
    "controller = 0\n"
    "program = \"gone\"\n"
    "[[program]]\n"
    "name = \"again\"\n"
    "asm = \"\"\"\n"
    "ldxw r6, [r1+28]\n"
    "jeq r2, 0, on\n"
    "mov64 r1, r2\n"
    "call 2\n"
    "on:\n"
    "mov64 r1, r6\n"
    "call 15\n"
    "mov64 r1, 1\n"
    "call 4\n"
    "mov64 r0, 0\n"
    "exit\n"
    "\"\"\"\n"
    "[[program]]\n"
    "name = \"gone\"\n"
    "asm = \"\"\"\n"
    "jeq r2, 0, on\n"
    "mov64 r1, r2\n"
    "call 2\n"
    "on:\n"
    "mov64 r1, 0x0b\n"
    "call 5\n"
    "mov64 r0, 0\n"
    "exit\n"
    "\"\"\"\n";

/* Takes the run to its next stop, and the engine takes it over. */
static bool advanced(camr_engine *engine, camr_run *run)
{
    uint64_t r0;
    bool ended;
    WANT(camr_stretch(run) == CAMR_DONE && camr_advance(engine, run, &r0, &ended, &fate, &code) == CAMR_DONE);
    return ended;
}

static void classes_and_fates(void)
{
    camr_engine *engine, *other = opened();
    camr_run *run;
    uint32_t ccb, waiting;
    uint64_t r0;
    bool ended;
    WANT(camr_open(classed, sizeof classed - 1, &engine, NULL, 0) == CAMR_DONE);
    WANT(camr_submit(engine, 0, 0, 1, 0x28, &ccb) == CAMR_DONE && ccb == 1 && camr_submit(engine, 0, 1, 1, 0, &waiting) == CAMR_DONE);
    WANT(camr_dispatch(engine, 0, &ccb, &advice) == CAMR_DONE && ccb == 1 && advice == 0);
    WANT(camr_withdraw(engine, 1) == CAMR_NOT_ACTIVE && camr_withdraw(engine, 3) == CAMR_UNKNOWN && camr_withdraw(NULL, 1) == CAMR_NULL);
    WANT(camr_withdraw(engine, waiting) == CAMR_DONE && camr_withdraw(engine, waiting) == CAMR_UNKNOWN && camr_withdraw(other, 1) == CAMR_UNKNOWN);
    WANT(camr_complete(engine, ccb, CAMR_CMD_TIMEOUT, 0, NULL, 0, &run) == CAMR_DONE && run != NULL);
    fate = 9, code = 9;
    WANT(camr_advance(engine, run, &r0, &ended, &fate, &code) == CAMR_NOT_STRETCHED && fate == CAMR_KEPT && code == 0);
    fate = 9, code = 9;
    WANT(camr_drive(other, run, &r0, &ended, &fate, &code) == CAMR_NOT_OUT && fate == CAMR_KEPT && code == 0);
    WANT(!advanced(engine, run) && fate == CAMR_KEPT && !advanced(engine, run) && fate == CAMR_KEPT);
    WANT(!advanced(engine, run) && fate == CAMR_REQUEUED && code == 0);
    WANT(camr_drive(other, run, &r0, &ended, &fate, &code) == CAMR_NOT_OUT && fate == CAMR_KEPT);
    WANT(camr_park(engine, run) == CAMR_DONE);
    WANT(camr_drive(engine, run, &r0, &ended, &fate, &code) == CAMR_SPENT && fate == CAMR_KEPT);
    camr_run_free(run);
    WANT(camr_resume(engine, 1, &run) == CAMR_DONE && camr_advance(engine, run, &r0, &ended, &fate, &code) == CAMR_NOT_STRETCHED && fate == CAMR_REQUEUED);
    WANT(advanced(engine, run) && fate == CAMR_REQUEUED);
    camr_run_free(run);
    WANT(camr_dispatch(engine, 0, &ccb, &advice) == CAMR_DONE && ccb == 1 && advice == 0x28);
    WANT(camr_submit(engine, 1, 0, 1, 0, &ccb) == CAMR_DONE && camr_dispatch(engine, 1, &ccb, &advice) == CAMR_DONE && advice == 0);
    WANT(camr_complete(engine, ccb, CAMR_CMD_TIMEOUT, 0, NULL, 0, &run) == CAMR_DONE && run != NULL);
    WANT(camr_drive(engine, run, &r0, &ended, &fate, &code) == CAMR_DONE && ended && fate == CAMR_FINISHED && code == 0x0b);
    camr_run_free(run);
    camr_close(other);
    camr_close(engine);
}

/* The advice and the fate stay over a crash and a succession; a start reports an advice once, and a refused one none. */
static void advice_stays(void)
{
    static const char front[] = "camr-trace 3\nsubmit 0 0 1 40 = ccb 1\nsubmit 0 1 1 0 = ccb 2\ndispatch 0 = ccb 1 advice 0\nwithdraw 2 = ok\n";
    camr_engine *engine, *again;
    camr_run *run;
    char text[1024], place[512];
    uint32_t ccb, numbers[2], states[2];
    uint64_t r0, next;
    size_t length, written, count;
    bool ended;
    WANT(camr_open(classed, sizeof classed - 1, &engine, NULL, 0) == CAMR_DONE);
    WANT(camr_submit(engine, 0, 0, 1, 0x28, &ccb) == CAMR_DONE && camr_submit(engine, 0, 1, 1, 0, &ccb) == CAMR_DONE && ccb == 2);
    WANT(camr_dispatch(engine, 0, &ccb, &advice) == CAMR_DONE && ccb == 1 && camr_withdraw(engine, 2) == CAMR_DONE);
    WANT(camr_ccbs(engine, 0, numbers, states, 2, &count) == CAMR_DONE && count == 1 && numbers[0] == 1);
    WANT(camr_trace(engine, 0, text, sizeof text, &length, &next) == CAMR_DONE && length == sizeof front - 1 && memcmp(text, front, length) == 0);
    WANT(camr_complete(engine, 1, CAMR_CMD_TIMEOUT, 0, NULL, 0, &run) == CAMR_DONE && run != NULL);
    WANT(camr_withdraw(engine, 1) == CAMR_NOT_ACTIVE); /* it is in recovery */
    fate = CAMR_KEPT;
    while (fate != CAMR_REQUEUED) WANT(!advanced(engine, run));
    WANT(camr_trace(engine, 0, text, sizeof text, &length, &next) == CAMR_DONE);
    camr_run_free(run);
    camr_close(engine);
    /* killed after the requeue and before the exit */
    WANT(camr_recover(classed, sizeof classed - 1, text, length, &again, NULL, 0) == CAMR_DONE && camr_take_run(again, &run) == CAMR_DONE);
    fate = 9;
    WANT(camr_drive(again, run, &r0, &ended, &fate, &code) == CAMR_DONE && ended && fate == CAMR_REQUEUED && code == 0);
    camr_run_free(run);
    WANT(camr_succeed(&again, manifest, sizeof manifest - 1, false, NULL, 0) == CAMR_DOES_NOT_FIT);
    WANT(camr_succeed(&again, NULL, 0, true, NULL, 0) == CAMR_DONE);
    WANT(camr_carried(again, 0, place, sizeof place - 1, &written, &next) == CAMR_DONE);
    place[written] = '\0';
    WANT(strstr(place, "\nccb 1 0 0 0 1 40 40 waiting\n") != NULL);
    ccb = advice = 9;
    WANT(camr_dispatch(again, 1, &ccb, &advice) == CAMR_NOTHING_WAITS && ccb == 0 && advice == 0);
    WANT(camr_dispatch(again, 0, &ccb, &advice) == CAMR_DONE && ccb == 1 && advice == 0x28);
    ccb = advice = 9;
    WANT(camr_dispatch(again, 0, &ccb, &advice) != CAMR_DONE && ccb == 0 && advice == 0);
    WANT(camr_dispatch(again, 0, &ccb, NULL) == CAMR_NULL && camr_dispatch(again, 0, NULL, &advice) == CAMR_NULL);
    WANT(camr_drive(again, NULL, &r0, &ended, NULL, &code) == CAMR_NULL && camr_drive(again, NULL, &r0, &ended, &fate, NULL) == CAMR_NULL);
    camr_close(again);
}

/* What a run did is told as well where memory is refused, and never falls back. */
static void fates_short_of_memory(void)
{
    camr_engine *engine;
    camr_run *run;
    camr_result result;
    uint32_t ccb, before = CAMR_KEPT;
    uint64_t r0;
    bool ended;
    long tries = 0;
    WANT(camr_open(classed, sizeof classed - 1, &engine, NULL, 0) == CAMR_DONE);
    WANT(camr_submit(engine, 0, 0, 1, 7, &ccb) == CAMR_DONE && camr_dispatch(engine, 0, &ccb, &advice) == CAMR_DONE);
    WANT(camr_complete(engine, ccb, CAMR_CMD_TIMEOUT, 0, NULL, 0, &run) == CAMR_DONE && run != NULL);
    do {
        before_refusal = tries++, fate = 9, code = 9;
        result = camr_drive(engine, run, &r0, &ended, &fate, &code);
        before_refusal = -1;
        WANT(result == CAMR_DONE || (result == CAMR_OUT_OF_MEMORY && !ended));
        WANT(fate >= before && fate <= CAMR_REQUEUED && code == 0);
        before = fate;
    } while (result != CAMR_DONE);
    WANT(tries > 1 && ended && fate == CAMR_REQUEUED);
    WANT(camr_drive(engine, run, &r0, &ended, &fate, &code) == CAMR_SPENT && fate == CAMR_KEPT);
    camr_run_free(run);
    camr_close(engine);
}

int main(void)
{
    recovers();
    cuts_sense();
    refuses();
    freezes();
    parks();
    follows();
    follows_not();
    ccbs();
    goes_on_after_a_crash();
    goes_not_on();
    recovers_short_of_memory();
    counts();
    nulls_and_faults();
    streams();
    classes_and_fates();
    advice_stays();
    fates_short_of_memory();
    return 0;
}
