/*
 * camr_engine.h: the recovery engine of camr, for a transport that is written in C or C++.
 *
 * An engine holds device queues with their CCBs, the freezes of queues and controllers, the recovery runs that failed CCBs started,
 * and the history of the calls made on it. This header declares the calls of a static library, libcamr_c.a, which is proved against
 * the definitions of docs/assurance/definitions.md. `make` proves and builds it, and once it is installed,
 * `pkg-config --cflags --libs camr` prints the options for a compiler. The manual page is camr_engine(3).
 *
 * RESULTS. A call returns a camr_result.
 *   - CAMR_DONE: the call was carried out. It is recorded if it changes what the engine holds; camr_succeed begins another history.
 *   - CAMR_UNKNOWN to CAMR_CONTROLLER_FROZEN: the call was refused, and the refusal is recorded. Nothing else changed. camr_take_run and
 *     camr_result_text record nothing.
 *   - Every other result: the engine is as before, and nothing is recorded. There is one exception: camr_drive that returns
 *     CAMR_OUT_OF_MEMORY has recorded the stops that the run reached before.
 * What is written through a pointer that is not NULL is 0, false or NULL unless the result is CAMR_DONE, if nothing else is said below.
 * A null pointer gives CAMR_NULL, and a length that no object has gives CAMR_TOO_LONG; the comments below do not repeat it. No call
 * ends the process, and none waits.
 *
 * HANDLES. A camr_engine comes from camr_open or camr_recover and goes with camr_close; camr_succeed makes it the handle of another
 * engine. A camr_run comes from camr_complete, camr_resume or camr_take_run and goes with camr_run_free, always, also when the run has
 * ended or is parked. Only the library looks into a handle. A guest's freeze is a number, for which the engine keeps the one token that
 * gives it back.
 *
 * THREADS. The library starts no thread and takes no lock. A handle is used by one call at a time. The calls that are given an engine
 * are made under a lock of the host's. camr_stretch and camr_run_numbers are given a run alone and need no lock: the private
 * instructions of many runs go side by side, each on a thread of its own. A handle may go from thread to thread if a lock, the start
 * or the end of a thread, or a sequentially consistent atomic orders that.
 *
 * MEMORY. An engine keeps a record in 40 bytes, and up to 64 more for sense or traced bytes, until the host takes its line
 * (camr_take). A host that takes the lines runs in constant memory. camr_recover takes memory for the text and for a record of each line
 * while it works, and gives that back. No contract speaks of memory; .ci/c-library measures it.
 *
 * WHAT THE HOST PROMISES. The library does not see these things; the host has to keep them.
 *   - A handle is one that was given and is not freed, and is used by one call at a time.
 *   - A pointer that is not NULL leads to as many bytes as its length says, or to one value of its type, that nobody else reads or
 *     writes during the call. Pointers given to one call lead to separate places.
 *   - The runs of an engine are freed before it is closed, or are forfeited by that: a run of an engine that is closed may still be
 *     freed, and nothing else.
 *   - No call is made from a signal handler, nor in the forked child of a process with threads.
 *   - The host defines the three functions of the heap that are declared at the end, and links memcpy, memmove and memset. The library
 *     asks for no other function.
 *
 * The header is C11 and C++11. What begins with camr_raw_ is what the library exports. Hosts in other languages may call that, and have
 * to keep the promises that stand there.
 */
#ifndef CAMR_ENGINE_H
#define CAMR_ENGINE_H

#include <stdbool.h>
#include <stddef.h>
#include <stdint.h>
#ifdef CAMR_ENGINE_HEAP
#include <stdlib.h>
#endif

#ifdef __cplusplus
extern "C" {
#endif

/* What a call returns. The numbers stay. */
typedef uint32_t camr_result;

enum {
    CAMR_DONE = 0,
    CAMR_OUT_OF_MEMORY = 1,       /* memory was refused */
    CAMR_UNKNOWN = 2,             /* C1, recorded: no such queue, controller, CCB or parked run */
    CAMR_LIMIT = 3,               /* C2, recorded: a limit is reached */
    CAMR_NOT_ACTIVE = 4,          /* C3, recorded: the CCB is not active; or, for camr_withdraw, does not wait */
    CAMR_GOES_BACK = 5,           /* C5, recorded: the clock would go back */
    CAMR_FROZEN = 6,              /* Q2, recorded: the queue is frozen */
    CAMR_NO_OPENING = 7,          /* Q3, recorded: as many of its CCBs are active as the queue has openings */
    CAMR_NOTHING_WAITS = 8,       /* Q4, recorded: no CCB of the queue waits */
    CAMR_CONTROLLER_FROZEN = 9,   /* Q5, recorded: the controller is frozen that the queue is under */
    CAMR_NOT_OUT = 10,            /* C4: the run is not out in this engine */
    CAMR_NOT_HELD = 11,           /* C6: no guest's freeze is the token's; no host of this library sees it */
    CAMR_NO_TOKEN = 12,           /* the engine's handle keeps no token of that number */
    CAMR_NO_COMPLETION = 13,      /* no device reports such a completion */
    CAMR_SPENT = 14,              /* the run has ended or is parked */
    CAMR_NOT_STRETCHED = 15,      /* the run was not taken to its next stop */
    CAMR_NOT_UTF8 = 16,           /* the manifest is not UTF-8; or, for camr_recover, the trace */
    CAMR_FAULTY = 17,             /* the manifest is faulty: the text of the fault says why; or, for camr_recover, the trace */
    CAMR_NO_ROOM = 18,            /* not one line more finds room */
    CAMR_NO_TEXT = 19,            /* a record has no text: none of an engine's records is such */
    CAMR_NULL = 20,               /* a pointer is null */
    CAMR_TOO_LONG = 21,           /* a length is greater than that of any object */
    CAMR_TAKEN = 22,              /* the record was taken before */
    CAMR_RUNS_LIVE = 23,          /* a run is live: no engine can follow */
    CAMR_DOES_NOT_FIT = 24        /* a live CCB or a freeze is of what the new manifest lacks: a queue, a controller, classes or advice */
};

/* What camr_ccbs reports of a live CCB. */
enum {
    CAMR_WAITING = 1,             /* it waits for its start */
    CAMR_ACTIVE = 2,              /* a device works on it */
    CAMR_IN_RECOVERY = 3          /* its completion failed, and a run decides what becomes of it */
};

/* What a run has done with its CCB. */
enum {
    CAMR_KEPT = 0,                /* it has not disposed of it yet */
    CAMR_REQUEUED = 1,            /* the CCB waits again */
    CAMR_FINISHED = 2             /* the CCB is finished, with a final code */
};

/* What the usual words of a policy's advice ask of the host, before the CCB is tried again. Words from CAMR_ADVICE_OF_HOST on are the
 * host's own. */
enum {
    CAMR_ADVICE_NONE = 0,
    CAMR_ADVICE_TEST_UNIT_READY = 1,
    CAMR_ADVICE_START_UNIT = 2,
    CAMR_ADVICE_REQUEST_SENSE = 3,
    CAMR_ADVICE_ABORT = 4,
    CAMR_ADVICE_LOGICAL_UNIT_RESET = 5,
    CAMR_ADVICE_TARGET_RESET = 6,
    CAMR_ADVICE_BUS_RESET = 7,
    CAMR_ADVICE_RECONNECT = 8,
    CAMR_ADVICE_OF_HOST = 65536
};

/* CAM statuses that a device may report. */
enum {
    CAMR_REQ_CMP = 0x01,          /* without an error: it needs no recovery */
    CAMR_REQ_ABORTED = 0x02,
    CAMR_BUSY = 0x05,
    CAMR_SEL_TIMEOUT = 0x0a,
    CAMR_CMD_TIMEOUT = 0x0b,
    CAMR_SCSI_STATUS_ERROR = 0x0c,
    CAMR_SCSI_BUS_RESET = 0x0e,
    CAMR_BDR_SENT = 0x17,
    CAMR_REQUEUE_REQ = 0x1b
};

/* An engine, and a run that is or was out. */
typedef struct camr_engine camr_engine;
typedef struct camr_run camr_run;

/* The sums of an engine. */
typedef struct camr_totals_t {
    uint64_t history;             /* how many records there are */
    uint32_t frozen;              /* how many freezes are held, at most 1,024 */
    uint32_t active;              /* how many CCBs are active, at most 4,096 */
    uint32_t runs;                /* how many runs are live, at most 256 */
} camr_totals_t;

/* ---- what the library exports --------------------------------------------------------------------------------------------
 *
 * `engine` and `run` lead to the variable in which the host keeps the handle. The variable has to hold a handle, unless the call is one
 * that gives it. Only camr_raw_open, camr_raw_recover, camr_raw_complete, camr_raw_resume, camr_raw_take_run, camr_raw_close and
 * camr_raw_run_free write the variable. The host promises that no pointer is null, no length is above PTRDIFF_MAX, and a bool is 0 or 1. */
uint32_t camr_raw_open(const uint8_t *manifest, size_t length, camr_engine **engine, uint8_t *fault, size_t fault_length,
                       size_t *written);
void camr_raw_close(camr_engine **engine);
uint32_t camr_raw_submit(camr_engine **engine, uint32_t queue, uint32_t priority, uint32_t retries, uint32_t class_, uint32_t *ccb);
uint32_t camr_raw_dispatch(camr_engine **engine, uint32_t queue, uint32_t *ccb, uint32_t *advice);
uint32_t camr_raw_withdraw(camr_engine **engine, uint32_t ccb);
uint32_t camr_raw_complete(camr_engine **engine, uint32_t ccb, uint8_t status, uint8_t scsi, const uint8_t *sense,
                           size_t sense_length, camr_run **run, bool *started);
uint32_t camr_raw_clock(camr_engine **engine, uint64_t reading, uint32_t *removed);
bool camr_raw_next_due(camr_engine **engine, uint64_t *reading);
uint32_t camr_raw_guest_freeze(camr_engine **engine, uint32_t queue, uint32_t guest, uint32_t *freeze);
uint32_t camr_raw_guest_freeze_controller(camr_engine **engine, uint32_t controller, uint32_t guest, uint32_t *freeze);
uint32_t camr_raw_guest_release(camr_engine **engine, uint32_t freeze, uint32_t *left);
uint32_t camr_raw_park(camr_engine **engine, camr_run **run);
uint32_t camr_raw_resume(camr_engine **engine, uint32_t number, camr_run **run, bool *resumed);
uint32_t camr_raw_stretch(camr_run **run);
uint32_t camr_raw_advance(camr_engine **engine, camr_run **run, uint64_t *r0, bool *ended, uint32_t *fate, uint8_t *code);
uint32_t camr_raw_drive(camr_engine **engine, camr_run **run, uint64_t *r0, bool *ended, uint32_t *fate, uint8_t *code);
void camr_raw_run_numbers(camr_run **run, uint32_t *number, uint32_t *freeze);
void camr_raw_run_free(camr_run **run);
void camr_raw_totals(camr_engine **engine, camr_totals_t *sums);
uint32_t camr_raw_trace(camr_engine **engine, uint64_t from, uint8_t *place, size_t length, size_t *written, uint64_t *next);
uint32_t camr_raw_take(camr_engine **engine, uint8_t *place, size_t length, size_t *written);
uint32_t camr_raw_trace_end(camr_engine **engine, uint8_t *place, size_t length, size_t *written);
uint32_t camr_raw_metrics(camr_engine **engine, uint8_t *place, size_t length, size_t *written);
uint32_t camr_raw_succeed(camr_engine **engine, const uint8_t *manifest, size_t length, bool fresh, uint8_t *fault,
                          size_t fault_length, size_t *written);
uint32_t camr_raw_renew(camr_engine **engine, bool fresh);
uint32_t camr_raw_carried(camr_engine **engine, uint64_t from, uint8_t *place, size_t length, size_t *written, uint64_t *next);
void camr_raw_ccbs(camr_engine **engine, uint32_t from, uint32_t *numbers, size_t numbers_length, uint32_t *states,
                   size_t states_length, size_t *count);
uint32_t camr_raw_recover(const uint8_t *manifest, size_t length, const uint8_t *text, size_t text_length, camr_engine **engine,
                          uint8_t *fault, size_t fault_length, size_t *written);
bool camr_raw_take_run(camr_engine **engine, camr_run **run);
bool camr_raw_result_text(uint32_t result, uint8_t *place, size_t length, size_t *written);

/* Whether there can be so many bytes at a place. */
static inline camr_result camr_place_(const void *place, size_t length)
{
    if (place == NULL && length != 0) return CAMR_NULL;
    return length > (size_t)PTRDIFF_MAX ? CAMR_TOO_LONG : CAMR_DONE;
}

/* ---- an engine ------------------------------------------------------------------------------------------------------------ */

/*
 * Opens an engine of the text of a manifest, which has `length` bytes, with an empty history. The engine goes to *engine, and is the
 * host's until camr_close. If the manifest is faulty, as much of the fault's text as finds room is put into `fault`, which has
 * `fault_length` bytes and may be NULL if that is 0. The text begins with the code of the fault, and a 0 ends it if there is any room.
 * Results: CAMR_NOT_UTF8, CAMR_FAULTY, CAMR_OUT_OF_MEMORY; *engine is NULL then, and nothing is left.
 */
static inline camr_result camr_open(const char *manifest, size_t length, camr_engine **engine, char *fault, size_t fault_length)
{
    uint8_t none = 0;
    size_t written = 0;
    if (engine != NULL) *engine = NULL;
    if (engine == NULL) return CAMR_NULL;
    camr_result place = camr_place_(manifest, length);
    if (place != CAMR_DONE) return place;
    place = camr_place_(fault, fault_length);
    if (place != CAMR_DONE) return place;
    camr_engine *opened = NULL;
    camr_result result = camr_raw_open(length != 0 ? (const uint8_t *)manifest : &none, length, &opened,
                                       fault_length != 0 ? (uint8_t *)fault : &none, fault_length != 0 ? fault_length - 1 : 0,
                                       &written);
    if (fault_length != 0) fault[written] = '\0';
    if (result == CAMR_DONE) *engine = opened;
    return result;
}

/* Ends an engine. NULL is no engine. Runs that are out, and freezes of guests, are forfeited: nothing may be asked of these runs any
 * more, and their handles are freed as always. */
static inline void camr_close(camr_engine *engine)
{
    if (engine != NULL) camr_raw_close(&engine);
}

/* Submits a CCB to a queue. *ccb is its number, from 1. The CCB with the lowest priority number starts first. The CCB may be tried again
 * `retries` times, which its policy reads. `class_` is what the command is, as a number of the host's choice, say the SCSI operation code:
 * its policy reads it. Below version 3 of the manifest it is taken as 0. Results: CAMR_UNKNOWN, CAMR_LIMIT, CAMR_OUT_OF_MEMORY. */
static inline camr_result camr_submit(camr_engine *engine, uint32_t queue, uint32_t priority, uint32_t retries, uint32_t class_,
                                      uint32_t *ccb)
{
    if (ccb != NULL) *ccb = 0;
    if (engine == NULL || ccb == NULL) return CAMR_NULL;
    return camr_raw_submit(&engine, queue, priority, retries, class_, ccb);
}

/* Starts the CCB of a queue that goes first. *ccb is its number. The device has it from now on, until camr_complete. *advice is what a
 * policy advised since the start before, and 0 if it advised nothing: the host does it before it gives the command to the device. Results:
 * CAMR_UNKNOWN, CAMR_FROZEN, CAMR_NO_OPENING, CAMR_NOTHING_WAITS, CAMR_CONTROLLER_FROZEN, CAMR_OUT_OF_MEMORY. */
static inline camr_result camr_dispatch(camr_engine *engine, uint32_t queue, uint32_t *ccb, uint32_t *advice)
{
    if (ccb != NULL) *ccb = 0;
    if (advice != NULL) *advice = 0;
    if (engine == NULL || ccb == NULL || advice == NULL) return CAMR_NULL;
    return camr_raw_dispatch(&engine, queue, ccb, advice);
}

/* Takes a CCB that waits out of its queue, say because its device is gone, also while the queue is frozen: it is finished with the code
 * CAMR_REQ_ABORTED. A host completes an active CCB instead, and withdraws one in recovery once its run has requeued it. Below version 3 of
 * the manifest there is no CCB to withdraw. Results: CAMR_UNKNOWN; CAMR_NOT_ACTIVE if the CCB does not wait; CAMR_OUT_OF_MEMORY. */
static inline camr_result camr_withdraw(camr_engine *engine, uint32_t ccb)
{
    return engine == NULL ? (camr_result)CAMR_NULL : camr_raw_withdraw(&engine, ccb);
}

/*
 * Reports that a device is done with an active CCB: its CAM status, its SCSI status byte, and its sense bytes, which may be NULL if there
 * are none. A completion has 64 of them at most: of more, the first 64 are taken. With CAMR_REQ_CMP the CCB is finished and gone, and *run
 * is NULL. With any other status its queue is frozen once more, and a run of the queue's policy starts. The run goes to *run, and is the
 * host's until camr_run_free. Results: CAMR_NO_COMPLETION for a status that no device reports; CAMR_UNKNOWN, CAMR_NOT_ACTIVE, CAMR_LIMIT,
 * CAMR_OUT_OF_MEMORY. *run is NULL then.
 */
static inline camr_result camr_complete(camr_engine *engine, uint32_t ccb, uint8_t status, uint8_t scsi, const void *sense,
                                        size_t sense_length, camr_run **run)
{
    uint8_t none = 0;
    bool started = false;
    camr_run *its = NULL;
    if (run != NULL) *run = NULL;
    if (engine == NULL || run == NULL) return CAMR_NULL;
    camr_result place = camr_place_(sense, sense_length);
    if (place != CAMR_DONE) return place;
    camr_result result = camr_raw_complete(&engine, ccb, status, scsi, sense_length != 0 ? (const uint8_t *)sense : &none,
                                           sense_length, &its, &started);
    if (started) *run = its;
    return result;
}

/* Reads the clock, in milliseconds. *removed is the number of freezes that went because their timers were due. No other call lets timers
 * go. Results: CAMR_LIMIT, CAMR_GOES_BACK, CAMR_OUT_OF_MEMORY. */
static inline camr_result camr_clock(camr_engine *engine, uint64_t reading, uint32_t *removed)
{
    if (removed != NULL) *removed = 0;
    if (engine == NULL || removed == NULL) return CAMR_NULL;
    return camr_raw_clock(&engine, reading, removed);
}

/* Reports whether a timer holds a freeze, and when the first one is due, in milliseconds: no earlier reading of the clock lets a freeze
 * go. The call is not recorded. */
static inline camr_result camr_next_due(camr_engine *engine, bool *is_due, uint64_t *reading)
{
    if (is_due != NULL) *is_due = false;
    if (reading != NULL) *reading = 0;
    if (engine == NULL || is_due == NULL || reading == NULL) return CAMR_NULL;
    *is_due = camr_raw_next_due(&engine, reading);
    return CAMR_DONE;
}

/* Freezes a queue, or a controller, for a guest; `guest` is a number of the guest's choice. *freeze is the number of the freeze, from 1,
 * which is never given again. The engine keeps its token until camr_guest_release. Results: CAMR_UNKNOWN, CAMR_LIMIT,
 * CAMR_OUT_OF_MEMORY. */
static inline camr_result camr_guest_freeze(camr_engine *engine, uint32_t queue, uint32_t guest, uint32_t *freeze)
{
    if (freeze != NULL) *freeze = 0;
    if (engine == NULL || freeze == NULL) return CAMR_NULL;
    return camr_raw_guest_freeze(&engine, queue, guest, freeze);
}

static inline camr_result camr_guest_freeze_controller(camr_engine *engine, uint32_t controller, uint32_t guest, uint32_t *freeze)
{
    if (freeze != NULL) *freeze = 0;
    if (engine == NULL || freeze == NULL) return CAMR_NULL;
    return camr_raw_guest_freeze_controller(&engine, controller, guest, freeze);
}

/* Gives the freeze of a guest back. *left is the number of freezes that its queue or controller then has. Results: CAMR_NO_TOKEN if the
 * engine keeps no token of that number, as of the freeze of a run, or of one that was given back; CAMR_OUT_OF_MEMORY, and the freeze and
 * its token are still there; CAMR_NOT_HELD. */
static inline camr_result camr_guest_release(camr_engine *engine, uint32_t freeze, uint32_t *left)
{
    if (left != NULL) *left = 0;
    if (engine == NULL || left == NULL) return CAMR_NULL;
    return camr_raw_guest_release(&engine, freeze, left);
}

/* Reports the sums so far. The call is not recorded. */
static inline camr_result camr_totals(camr_engine *engine, camr_totals_t *totals)
{
    const camr_totals_t none = {0, 0, 0, 0};
    if (totals != NULL) *totals = none;
    if (engine == NULL || totals == NULL) return CAMR_NULL;
    camr_raw_totals(&engine, totals);
    return CAMR_DONE;
}

/*
 * Puts whole lines of the trace into a buffer, as many as find room, and takes none: those of the records from number `from` on, counted
 * from 0, and before that of record 0 the first line of a trace. An engine that follows another one has its first line with its carried
 * lines (camr_carried), and none here. *written is the number of bytes. *next is, with each result, the record from which to go on; if it
 * is the number of records, or more, there is no more. If there is no record yet, the first line is put by itself, and *next stays 0. A
 * line has at most 361 bytes, with its line feed, and the first line has 13. With each result the buffer is as before from *written on.
 * Results: CAMR_NO_ROOM if no line finds room, for record 0 together with the first line; CAMR_TAKEN if the record of that number was
 * taken; CAMR_NO_TEXT.
 */
static inline camr_result camr_trace(camr_engine *engine, uint64_t from, char *buffer, size_t length, size_t *written,
                                     uint64_t *next)
{
    uint8_t none = 0;
    if (written != NULL) *written = 0;
    if (next != NULL) *next = from;
    if (engine == NULL || written == NULL || next == NULL) return CAMR_NULL;
    camr_result place = camr_place_(buffer, length);
    if (place != CAMR_DONE) return place;
    return camr_raw_trace(&engine, from, length != 0 ? (uint8_t *)buffer : &none, length, written, next);
}

/*
 * Takes whole lines of the trace into a buffer, as many as find room: those of the records that were not taken yet, in their order, and
 * before that of record 0 the first line of a trace, unless the engine follows another one. *written is the number of bytes. The engine
 * forgets these records, and gives their memory back or fills it anew; its sums count them still. If no record is left, *written is 0.
 * The first line is not put either then: a host that ends an engine without a record asks camr_trace from 0 for it. A buffer of 720 bytes
 * has room for one line at least. With each result the buffer is as before from *written on. Results: CAMR_NO_ROOM if the next line finds
 * no room, and then nothing is taken; CAMR_NO_TEXT.
 */
static inline camr_result camr_take(camr_engine *engine, char *buffer, size_t length, size_t *written)
{
    uint8_t none = 0;
    if (written != NULL) *written = 0;
    if (engine == NULL || written == NULL) return CAMR_NULL;
    camr_result place = camr_place_(buffer, length);
    if (place != CAMR_DONE) return place;
    return camr_raw_take(&engine, length != 0 ? (uint8_t *)buffer : &none, length, written);
}

/* Puts the last line of the trace, the sums so far, into a buffer. A trace that `camr replay` accepts is the lines of all records and
 * this one, after the carried lines if the engine follows another one. The buffer is as before from *written on. Results: CAMR_NO_ROOM. */
static inline camr_result camr_trace_end(camr_engine *engine, char *buffer, size_t length, size_t *written)
{
    uint8_t none = 0;
    if (written != NULL) *written = 0;
    if (engine == NULL || written == NULL) return CAMR_NULL;
    camr_result place = camr_place_(buffer, length);
    if (place != CAMR_DONE) return place;
    return camr_raw_trace_end(&engine, length != 0 ? (uint8_t *)buffer : &none, length, written);
}

/*
 * Puts what the engine counts, and what it holds now, into a buffer: the text that `camr live --metrics` writes, in the text format of
 * Prometheus. camr(1) lists its metrics. All of the text is put, or nothing. *written is the number of its bytes, also with CAMR_NO_ROOM:
 * a host asks with a length of 0 how long the text is, makes room, and asks again. The buffer is as before from *written on, and with
 * CAMR_NO_ROOM all of it is. The call is not recorded.
 *
 * Counters begin at 0 with camr_open and with camr_recover, which counts none of the records that it reads. They go on over camr_succeed.
 * The engine counts with each call, whether lines are taken or not. Results: CAMR_NO_ROOM, CAMR_OUT_OF_MEMORY.
 */
static inline camr_result camr_metrics(camr_engine *engine, char *buffer, size_t length, size_t *written)
{
    uint8_t none = 0;
    if (written != NULL) *written = 0;
    if (engine == NULL || written == NULL) return CAMR_NULL;
    camr_result place = camr_place_(buffer, length);
    if (place != CAMR_DONE) return place;
    return camr_raw_metrics(&engine, length != 0 ? (uint8_t *)buffer : &none, length, written);
}

/* ---- an engine that follows another one -------------------------------------------------------------------------------------- */

/*
 * Ends an engine without a live run, and begins another one in its place, which takes over its live CCBs, its freezes, its openings, the
 * words of its tables, and its clock. *engine is then the handle of the new engine, and keeps the tokens of its guests' freezes. The
 * manifest of the new engine has `length` bytes; NULL is the one in force, and `length` is 0 then. A queue keeps its present openings if
 * both manifests give it the same number, and a table its words if both give it the same length and the same first words; otherwise they
 * are those of the new one.
 *
 * Without `fresh`, numbers go on from the greatest ones given. With it, the CCBs, and likewise the freezes, are numbered 1, 2, 3 and so on
 * in the order of their old numbers, and runs begin at 1: from then on calls name the new numbers. camr_carried reports them.
 *
 * Records that were not taken, and the sums of the old engine, are gone: a host takes them, and the last line, before. The history of the
 * new engine is empty.
 *
 * Results, of which the first that holds is returned: CAMR_RUNS_LIVE, also for a parked run, and then the manifest is not read;
 * CAMR_NOT_UTF8 and CAMR_FAULTY, as for camr_open, with the text of the fault in `fault`; CAMR_DOES_NOT_FIT if a live CCB or a freeze is of
 * a queue or a controller that the new manifest does not have, or if that is of version 1 or 2 and a live CCB has a class or an advice (the
 * one in force always fits); CAMR_OUT_OF_MEMORY. Whichever it is, the
 * engine is as before, and *engine is its handle.
 */
static inline camr_result camr_succeed(camr_engine **engine, const char *manifest, size_t length, bool fresh, char *fault,
                                       size_t fault_length)
{
    uint8_t none = 0;
    size_t written = 0;
    if (engine == NULL || *engine == NULL) return CAMR_NULL;
    camr_result place = camr_place_(manifest, length);
    if (place != CAMR_DONE) return place;
    place = camr_place_(fault, fault_length);
    if (place != CAMR_DONE) return place;
    if (fault_length != 0) fault[0] = '\0';
    if (manifest == NULL) return camr_raw_renew(engine, fresh);
    camr_result result = camr_raw_succeed(engine, length != 0 ? (const uint8_t *)manifest : &none, length, fresh,
                                          fault_length != 0 ? (uint8_t *)fault : &none, fault_length != 0 ? fault_length - 1 : 0,
                                          &written);
    if (fault_length != 0) fault[written] = '\0';
    return result;
}

/*
 * Puts the lines with which the trace of an engine begins that follows another one into a buffer, as whole lines and as many as find room:
 * those from line `from` on, counted from 0, and before line 0 the first line of that trace, `camr-trace V continued`. *written is the
 * number of bytes. *next is, with each result, the line from which to go on; after the last one *written is 0. A line has at most 67 bytes,
 * with its line feed, and the first line has 23: a buffer of 720 bytes has room for one line at least. With each result the buffer is as
 * before from *written on. The lines are there until the engine has a record, so a host asks for them directly after camr_succeed.
 * Results: CAMR_NO_ROOM if no line finds room, for line 0 together with the first line; CAMR_TAKEN if the engine has a record, or is one
 * that camr_open opened, which has no such lines.
 */
static inline camr_result camr_carried(camr_engine *engine, uint64_t from, char *buffer, size_t length, size_t *written,
                                       uint64_t *next)
{
    uint8_t none = 0;
    if (written != NULL) *written = 0;
    if (next != NULL) *next = from;
    if (engine == NULL || written == NULL || next == NULL) return CAMR_NULL;
    camr_result place = camr_place_(buffer, length);
    if (place != CAMR_DONE) return place;
    return camr_raw_carried(&engine, from, length != 0 ? (uint8_t *)buffer : &none, length, written, next);
}

/* Lists the live CCBs whose number is `from` or a greater one, by rising number, as many as find room in two arrays of `capacity`
 * elements: numbers[i] is the number of a CCB, and states[i] says where it is: CAMR_WAITING, CAMR_ACTIVE or CAMR_IN_RECOVERY. *count is
 * how many are listed; if that is `capacity` there may be more, and the host goes on from the last number and 1. There are at most 4,096.
 * The arrays are as before from *count on. The call is not recorded. */
static inline camr_result camr_ccbs(camr_engine *engine, uint32_t from, uint32_t *numbers, uint32_t *states, size_t capacity,
                                    size_t *count)
{
    uint32_t none[2] = {0, 0};
    if (count != NULL) *count = 0;
    if (engine == NULL || count == NULL) return CAMR_NULL;
    if ((numbers == NULL || states == NULL) && capacity != 0) return CAMR_NULL;
    if (capacity > (size_t)PTRDIFF_MAX / sizeof *numbers) return CAMR_TOO_LONG;
    camr_raw_ccbs(&engine, from, capacity != 0 ? numbers : &none[0], capacity, capacity != 0 ? states : &none[1], capacity, count);
    return CAMR_DONE;
}

/* ---- after a crash ----------------------------------------------------------------------------------------------------------- */

/*
 * Opens an engine of the text of a manifest, and leads it to where the text of a trace led: what a host wrote of the lines that camr_take
 * gave, after the lines of camr_carried if the engine followed another one. What stands after the last line feed is ignored: it is a line
 * that a crash cut off. The last line of the trace may be there; camr_succeed can follow.
 *
 * The engine stands after the records of the text, which are its history and count as taken: camr_trace answers CAMR_TAKEN for them, and
 * camr_carried too if there is one. Waiting and active CCBs, openings, the words of tables, the clock and the greatest numbers given are
 * those that the records led to. Each run that was out is out again, after its last recorded stop, and is to be taken by camr_take_run.
 * Parked runs are parked. The freezes of guests are held under their numbers, and the engine keeps their tokens.
 *
 * The texts have `length` and `text_length` bytes. The engine goes to *engine, and is the host's until camr_close. If a text is faulty, as
 * much of the fault's text as finds room is put into `fault`, as by camr_open. A fault of the manifest comes first. The faults of the trace
 * are those that `camr replay` prints, as "X3 at 17", and come in its order: X1; X2, of any line; X3 at 1 for another version than the
 * manifest's; X4; X3. If the last line is missing, there are no sums to judge. Bytes after the last line feed that can be the front of no
 * line, such as zeros, are X2.
 * Results: CAMR_NOT_UTF8, CAMR_FAULTY, CAMR_OUT_OF_MEMORY; *engine is NULL then, and nothing is left.
 */
static inline camr_result camr_recover(const char *manifest, size_t length, const char *text, size_t text_length, camr_engine **engine,
                                       char *fault, size_t fault_length)
{
    uint8_t none = 0, empty = 0;
    size_t written = 0;
    if (engine != NULL) *engine = NULL;
    if (engine == NULL) return CAMR_NULL;
    camr_result place = camr_place_(manifest, length);
    if (place != CAMR_DONE) return place;
    place = camr_place_(text, text_length);
    if (place != CAMR_DONE) return place;
    place = camr_place_(fault, fault_length);
    if (place != CAMR_DONE) return place;
    camr_engine *recovered = NULL;
    camr_result result = camr_raw_recover(length != 0 ? (const uint8_t *)manifest : &none, length,
                                          text_length != 0 ? (const uint8_t *)text : &none, text_length, &recovered,
                                          fault_length != 0 ? (uint8_t *)fault : &empty, fault_length != 0 ? fault_length - 1 : 0,
                                          &written);
    if (fault_length != 0) fault[written] = '\0';
    if (result == CAMR_DONE) *engine = recovered;
    return result;
}

/* Takes a run that was out when the engine was recovered: each of them once, by rising number. It goes to *run, and is the host's until
 * camr_run_free. The call is not recorded, and takes no memory. Results: CAMR_UNKNOWN if none is left, and for an engine that camr_open
 * opened; nothing is recorded then either, and *run is NULL. */
static inline camr_result camr_take_run(camr_engine *engine, camr_run **run)
{
    camr_run *its = NULL;
    if (run != NULL) *run = NULL;
    if (engine == NULL || run == NULL) return CAMR_NULL;
    if (!camr_raw_take_run(&engine, &its)) return CAMR_UNKNOWN;
    *run = its;
    return CAMR_DONE;
}

/* ---- a run ---------------------------------------------------------------------------------------------------------------- */

/* Takes a run to its next stop, which is a helper call or the exit, if it is not there. It executes the private instructions of the run,
 * at most as many as the program's budget. It asks no engine, needs no lock, and takes no memory. Results: CAMR_SPENT. */
static inline camr_result camr_stretch(camr_run *run)
{
    return run == NULL ? (camr_result)CAMR_NULL : camr_raw_stretch(&run);
}

/* Presents a run at its stop to its engine, which takes it over: *r0 is R0 after the stop, and *ended says whether the run has ended. The
 * run goes on from there, or is spent. *fate is what the run has done with its CCB so far: CAMR_KEPT, CAMR_REQUEUED, or CAMR_FINISHED with
 * the final code in *code, which is 0 otherwise. With CAMR_NOT_STRETCHED and CAMR_OUT_OF_MEMORY they are what the run did up to its last
 * recorded stop. With CAMR_SPENT, CAMR_NOT_OUT and CAMR_NULL they are CAMR_KEPT and 0, and say nothing about the CCB. Results: CAMR_NOT_STRETCHED; CAMR_SPENT; CAMR_NOT_OUT if it is a run of another engine,
 * and CAMR_OUT_OF_MEMORY: with these two the run is back after its last stop, and is stretched again. */
static inline camr_result camr_advance(camr_engine *engine, camr_run *run, uint64_t *r0, bool *ended, uint32_t *fate, uint8_t *code)
{
    if (r0 != NULL) *r0 = 0;
    if (ended != NULL) *ended = false;
    if (fate != NULL) *fate = CAMR_KEPT;
    if (code != NULL) *code = 0;
    if (engine == NULL || run == NULL || r0 == NULL || ended == NULL || fate == NULL || code == NULL) return CAMR_NULL;
    return camr_raw_advance(&engine, &run, r0, ended, fate, code);
}

/*
 * Takes a run from stop to stop until it has ended, with R0 at its exit in *r0. It does what camr_stretch and camr_advance do by turns,
 * with the same records, but faster. A run that was stretched is stretched again. With every result other than CAMR_DONE *ended is
 * false. Results: CAMR_SPENT; CAMR_NOT_OUT if it is a run of another engine, which is back after its last stop; CAMR_OUT_OF_MEMORY: what
 * the run did up to its last stop is recorded, *r0 is R0 after that stop, or 0 if there was none, and the host calls again to go on.
 * *fate and *code are what the run has done with its CCB so far, as of camr_advance.
 */
static inline camr_result camr_drive(camr_engine *engine, camr_run *run, uint64_t *r0, bool *ended, uint32_t *fate, uint8_t *code)
{
    if (r0 != NULL) *r0 = 0;
    if (ended != NULL) *ended = false;
    if (fate != NULL) *fate = CAMR_KEPT;
    if (code != NULL) *code = 0;
    if (engine == NULL || run == NULL || r0 == NULL || ended == NULL || fate == NULL || code == NULL) return CAMR_NULL;
    return camr_raw_drive(&engine, &run, r0, ended, fate, code);
}

/* Parks a run: it takes no step, and keeps its freezes, until camr_resume is given its number. The handle is spent. What the run did since
 * its last stop is forgotten. The call takes no memory. Results: CAMR_NOT_OUT if it is a run of another engine, which is back after its
 * last stop; CAMR_SPENT. */
static inline camr_result camr_park(camr_engine *engine, camr_run *run)
{
    if (engine == NULL || run == NULL) return CAMR_NULL;
    return camr_raw_park(&engine, &run);
}

/* Lets the parked run of that number go on. It goes to *run, and is the host's until camr_run_free. Results: CAMR_UNKNOWN,
 * CAMR_OUT_OF_MEMORY; *run is NULL then. */
static inline camr_result camr_resume(camr_engine *engine, uint32_t number, camr_run **run)
{
    bool resumed = false;
    camr_run *its = NULL;
    if (run != NULL) *run = NULL;
    if (engine == NULL || run == NULL) return CAMR_NULL;
    camr_result result = camr_raw_resume(&engine, number, &its, &resumed);
    if (resumed) *run = its;
    return result;
}

/* Reports the number of a run, from 1, and the number of the freeze that it was started with, which is 0 if it took none and if it was
 * resumed. The call asks no engine. */
static inline camr_result camr_run_numbers(camr_run *run, uint32_t *number, uint32_t *freeze)
{
    if (number != NULL) *number = 0;
    if (freeze != NULL) *freeze = 0;
    if (run == NULL || number == NULL || freeze == NULL) return CAMR_NULL;
    camr_raw_run_numbers(&run, number, freeze);
    return CAMR_DONE;
}

/* Frees the handle of a run. It asks no engine. NULL is no run. A run that has neither ended nor been parked is forfeited: it stays among
 * the live runs of its engine, with its freezes, and nobody can take it further. */
static inline void camr_run_free(camr_run *run)
{
    if (run != NULL) camr_raw_run_free(&run);
}

/* ---- texts, and the heap ---------------------------------------------------------------------------------------------------- */

/* Puts the text of a result into a buffer, as much as finds room. *written is the number of bytes, and the buffer is as before from there
 * on. The texts of CAMR_NOT_UTF8 and CAMR_FAULTY name the manifest alone, also if it is the trace that camr_recover refused. Results:
 * CAMR_UNKNOWN if there is no such result. */
static inline camr_result camr_result_text(camr_result result, char *buffer, size_t length, size_t *written)
{
    uint8_t none = 0;
    if (written != NULL) *written = 0;
    if (written == NULL) return CAMR_NULL;
    camr_result place = camr_place_(buffer, length);
    if (place != CAMR_DONE) return place;
    return camr_raw_result_text(result, length != 0 ? (uint8_t *)buffer : &none, length, written) ? CAMR_DONE : CAMR_UNKNOWN;
}

/*
 * The heap of the library, which the host defines. rattle_alloc gives a block of n bytes, or of a bytes if n is 0, at an address that a
 * divides. rattle_realloc makes the block at p one of n bytes, which may move; `kept` is the number of bytes that stand in it.
 * rattle_dealloc gives a block back. If there is no memory, `ok` is false, p leads to any byte, and a block that was to be made another
 * size is as before. The address of a block is a multiple of 16. In one file of a host that has malloc, this is enough:
 *
 *     #define CAMR_ENGINE_HEAP
 *     #include "camr_engine.h"
 */
struct rattle_tried {
    bool ok;
    void *p;
};
struct rattle_tried rattle_alloc(size_t n, size_t a);
struct rattle_tried rattle_realloc(void *p, size_t kept, size_t n, size_t a);
void rattle_dealloc(void *p);

#ifdef CAMR_ENGINE_HEAP
static inline struct rattle_tried camr_tried_(void *p)
{
    static char no_block;
    struct rattle_tried tried = {p != NULL, p != NULL ? p : (void *)&no_block};
    return tried;
}
struct rattle_tried rattle_alloc(size_t n, size_t a) { return camr_tried_(malloc(n != 0 ? n : a)); }
struct rattle_tried rattle_realloc(void *p, size_t kept, size_t n, size_t a)
{
    (void)kept;
    return camr_tried_(realloc(p, n != 0 ? n : a));
}
void rattle_dealloc(void *p) { free(p); }
#endif

#ifdef __cplusplus
}
#endif

#endif
