/*
 * A small transport over the recovery engine: four disks, simulated by 4 or more threads that serve their queues, with timeouts,
 * unit attentions and full task sets by a seeded generator. All calls that are given the engine are made under one mutex, and
 * runs execute their private instructions outside of it. The main thread reads the clock and prints the sums once a second.
 * The trace goes to a journal, from which the next start carries on, also if this one was killed.
 *
 *     transport MANIFEST JOURNAL SECONDS THREADS
 */
#define _POSIX_C_SOURCE 200809L
#define CAMR_ENGINE_HEAP
#include "../journal.h"

#include <pthread.h>
#include <time.h>

enum { DISKS = 4, OPENINGS = 8, MOST_THREADS = 64, RETRIES = 3, BATCH = 4, MOST_CCBS = 4096, MOST_SEGMENT = 4 << 20 };

/* What a disk was given and has not reported: its active CCBs. There are no more than its queue has openings. And whether a CCB of
 * its queue may wait: more are submitted if none does, so that few wait while it is frozen. */
struct disk {
    uint32_t commands[OPENINGS];
    unsigned count;
    bool may_wait;
};

/* All of it stands under the mutex, the engine too. */
static struct {
    pthread_mutex_t lock;
    struct journal journal;
    camr_engine *engine;
    uint64_t begun;                 /* the engine's clock reads 0 at this time */
    struct disk disks[DISKS];
    bool stops;
    uint64_t failures, recoveries;
} host = {.lock = PTHREAD_MUTEX_INITIALIZER};

/* Ends the program on a result that this host does not expect. */
static void expect(camr_result result, const char *call)
{
    char text[128];
    size_t length = 0;
    if (result == CAMR_DONE) return;
    camr_result_text(result, text, sizeof text, &length);
    fprintf(stderr, "transport: %s: %.*s\n", call, (int)length, text);
    exit(1);
}

/* The same for a call of the journal's. */
static void expect_kept(enum journal_result result)
{
    char text[512];
    if (result == JOURNAL_DONE) return;
    journal_text(&host.journal, text, sizeof text);
    fprintf(stderr, "transport: %s\n", text);
    exit(1);
}

/* A generator of 64 bits, by its state, which is not 0. */
static uint64_t next_random(uint64_t *state)
{
    *state ^= *state << 13;
    *state ^= *state >> 7;
    *state ^= *state << 17;
    return *state;
}

static uint64_t milliseconds(void)
{
    struct timespec now;
    clock_gettime(CLOCK_MONOTONIC, &now);
    return (uint64_t)now.tv_sec * 1000 + (uint64_t)now.tv_nsec / 1000000;
}

static void pause_for(long microseconds)
{
    struct timespec time = {microseconds / 1000000, microseconds % 1000000 * 1000};
    nanosleep(&time, NULL);
}

/* Gives the disk the CCBs that its queue may start. */
static void start_commands(unsigned disk)
{
    struct disk *its = &host.disks[disk];
    while (its->count < OPENINGS) {
        uint32_t ccb, advice;
        camr_result result = camr_dispatch(host.engine, disk, &ccb, &advice);
        /* the queue is frozen, has no opening, or none waits: it is tried again when something changes */
        its->may_wait = result != CAMR_NOTHING_WAITS;
        if (result == CAMR_FROZEN || result == CAMR_NO_OPENING || result == CAMR_NOTHING_WAITS) return;
        expect(result, "camr_dispatch");
        /* These disks are simulated: what is advised is as if it were done. */
        its->commands[its->count++] = ccb;
    }
}

/* Takes a run to its end. The mutex is held before and after it, and not while the run executes private instructions. */
static void recover(camr_run *run)
{
    bool ended = false;
    while (!ended) {
        uint64_t r0;
        uint32_t fate;
        uint8_t code;
        pthread_mutex_unlock(&host.lock);
        expect(camr_stretch(run), "camr_stretch");
        pthread_mutex_lock(&host.lock);
        expect(camr_advance(host.engine, run, &r0, &ended, &fate, &code), "camr_advance");
    }
    camr_run_free(run);
    host.recoveries++;
}

/* Lets the queue's policy decide, if a command failed. */
static void decide(camr_run *run)
{
    if (run == NULL) return;
    host.failures++;
    recover(run);
}

/* How a command ends, by chance: 3 of 100 time out, 2 find a unit attention, and 1 a full task set. */
static void report(unsigned disk, uint32_t ccb, uint64_t chance)
{
    static const uint8_t attention[18] = {0x70, 0, 6, 0, 0, 0, 0, 10, 0, 0, 0, 0, 0x29, 0};
    camr_run *run = NULL;
    camr_result result;
    if (chance < 3)
        result = camr_complete(host.engine, ccb, CAMR_CMD_TIMEOUT, 0, NULL, 0, &run);
    else if (chance < 5)
        result = camr_complete(host.engine, ccb, CAMR_SCSI_STATUS_ERROR, 0x02, attention, sizeof attention, &run);
    else if (chance < 6)
        result = camr_complete(host.engine, ccb, CAMR_SCSI_STATUS_ERROR, 0x28, NULL, 0, &run);
    else
        result = camr_complete(host.engine, ccb, CAMR_REQ_CMP, 0, NULL, 0, &run);
    expect(result, "camr_complete");
    decide(run);
    start_commands(disk);
}

/* Submits some commands to a disk's queue, where none waits. */
static void submit_commands(unsigned disk, uint64_t *state)
{
    if (host.disks[disk].may_wait) return;
    for (unsigned count = 0; count < BATCH; count++) {
        uint32_t ccb;
        expect(camr_submit(host.engine, disk, (uint32_t)(next_random(state) % 16), RETRIES, 0, &ccb), "camr_submit");
    }
    start_commands(disk);
}

/* A thread of a disk: it keeps some commands on their way, and serves one after the other. */
static void *serve(void *argument)
{
    uint64_t number = (uint64_t)(uintptr_t)argument;
    uint64_t state = 0x9e3779b97f4a7c15u * (number + 1);
    unsigned disk = (unsigned)(number % DISKS);
    struct disk *its = &host.disks[disk];
    pthread_mutex_lock(&host.lock);
    while (!host.stops) {
        uint32_t ccb;
        if (its->count < OPENINGS / 2) submit_commands(disk, &state);
        if (its->count == 0) {
            pthread_mutex_unlock(&host.lock);
            pause_for(1000);
            pthread_mutex_lock(&host.lock);
            continue;
        }
        ccb = its->commands[0];
        memmove(its->commands, its->commands + 1, --its->count * sizeof *its->commands);
        /* before the disk has it, its start is in the journal */
        expect_kept(journal_keep(&host.journal, host.engine, NULL, NULL));
        pthread_mutex_unlock(&host.lock);
        pause_for(100 + (long)(next_random(&state) % 400));
        pthread_mutex_lock(&host.lock);
        report(disk, ccb, next_random(&state) % 100);
    }
    pthread_mutex_unlock(&host.lock);
    return NULL;
}

/* Reads the clock, so that timers go, and lets the queues start what they were kept from. */
static void read_clock(void)
{
    uint32_t removed;
    expect(camr_clock(host.engine, milliseconds() - host.begun, &removed), "camr_clock");
    if (removed != 0)
        for (unsigned disk = 0; disk < DISKS; disk++) start_commands(disk);
}

static void print_totals(uint64_t second)
{
    camr_totals_t totals;
    expect(camr_totals(host.engine, &totals), "camr_totals");
    printf("%4" PRIu64 " s: %" PRIu64 " records, %" PRIu32 " frozen, %" PRIu32 " active, %" PRIu32 " runs, %" PRIu64 " failures, %" PRIu64
           " recoveries\n",
           second, totals.history, totals.frozen, totals.active, totals.runs, host.failures, host.recoveries);
    fflush(stdout);
}

/* Keeps what is new of the trace. A segment that has grown long is ended if no run is live, and the next one is begun. */
static void keep(void)
{
    camr_totals_t totals;
    expect_kept(journal_keep(&host.journal, host.engine, NULL, NULL));
    expect(camr_totals(host.engine, &totals), "camr_totals");
    if (host.journal.length > MOST_SEGMENT && totals.runs == 0)
        expect_kept(journal_rotate(&host.journal, &host.engine, NULL, 0, false, NULL, NULL));
}

/* Goes on from where the journal leads. The disks are simulated, so they went with the process that had the engine before: it is as if
   they had been reset. Runs that were out come to their ends first, and then the commands that the disks had are reported. */
static void carry_on(void)
{
    static uint32_t numbers[MOST_CCBS], states[MOST_CCBS];
    camr_run *run;
    size_t count;
    host.begun = milliseconds() - host.journal.clock;
    while (camr_take_run(host.engine, &run) == CAMR_DONE) decide(run);
    expect(camr_ccbs(host.engine, 0, numbers, states, MOST_CCBS, &count), "camr_ccbs");
    printf("%s segment %" PRIu64 ": %" PRIu64 " runs were out, %zu CCBs are live\n",
           host.journal.begun == JOURNAL_RECOVERED ? "goes on with" : "begins", host.journal.number, host.recoveries, count);
    fflush(stdout);
    for (size_t at = 0; at < count; at++) {
        if (states[at] != CAMR_ACTIVE) continue;
        expect(camr_complete(host.engine, numbers[at], CAMR_SCSI_BUS_RESET, 0, NULL, 0, &run), "camr_complete");
        decide(run);
    }
    for (unsigned disk = 0; disk < DISKS; disk++) start_commands(disk);
}

int main(int count, char **words)
{
    pthread_t threads[MOST_THREADS];
    char *manifest;
    size_t length;
    unsigned long seconds = count == 5 ? strtoul(words[3], NULL, 10) : 0;
    unsigned long serving = count == 5 ? strtoul(words[4], NULL, 10) : 0;
    if (seconds == 0 || serving < DISKS || serving > MOST_THREADS) {
        fprintf(stderr, "usage: transport MANIFEST JOURNAL SECONDS THREADS\n");
        return 2;
    }
    if (!journal_read(AT_FDCWD, words[1], &manifest, &length)) {
        fprintf(stderr, "transport: %s: %s\n", words[1], strerror(errno));
        return 1;
    }
    expect_kept(journal_start(&host.journal, words[2], manifest, length, false, &host.engine));
    free(manifest);
    pthread_mutex_lock(&host.lock);
    carry_on();
    pthread_mutex_unlock(&host.lock);
    for (unsigned long number = 0; number < serving; number++)
        if (pthread_create(&threads[number], NULL, serve, (void *)(uintptr_t)number) != 0) return 1;
    for (uint64_t tick = 1; tick <= (uint64_t)seconds * 100; tick++) {
        pause_for(10000);
        pthread_mutex_lock(&host.lock);
        read_clock();
        keep();
        if (tick % 100 == 0) print_totals(tick / 100);
        pthread_mutex_unlock(&host.lock);
    }
    pthread_mutex_lock(&host.lock);
    host.stops = true;
    pthread_mutex_unlock(&host.lock);
    for (unsigned long number = 0; number < serving; number++) pthread_join(threads[number], NULL);
    expect_kept(journal_end(&host.journal, host.engine, NULL, NULL));
    journal_close(&host.journal);
    camr_close(host.engine);
    return 0;
}
