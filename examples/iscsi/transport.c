/*
 * A transport over the recovery engine for a real SCSI target: four disks behind an iSCSI target, which are four queues under one
 * controller. It keeps 32 commands active at each, writes a pattern and reads it back, and adds a command now and then that a disk
 * has to refuse. Every block says of which disk, which address and which generation it is, so that a wrong, a lost and a stale block
 * are seen. One thread does all, in one poll loop.
 *
 * What a host owes its engine is to report only what the device surely no longer has:
 *   - a command that timed out is reported once its LUN is reset, and its neighbours with it;
 *   - a command that a lost connection took with it is reported once a new connection is there and every LUN is reset through it.
 *
 * The class of a command is its operation code. What a policy advises comes before the command does: the command is held until its disk is
 * ready, was reset, or has a new connection.
 *
 * The trace goes to the folder JOURNAL, and nothing goes to a disk before its lines are there. What a command is, and what the blocks may
 * hold, stands in the file JOURNAL.kept. After a crash the next start carries on from both.
 * Status 0: nothing was read wrong, and nothing is left. met.h counts what was met.
 *
 *     transport MANIFEST JOURNAL PORTAL TARGET SECONDS
 */
#define _POSIX_C_SOURCE 200809L
#define CAMR_ENGINE_HEAP
#include "../journal.h"
#include "met.h"

#include <iscsi/iscsi.h>
#include <iscsi/scsi-lowlevel.h>
#include <poll.h>
#include <signal.h>
#include <sys/mman.h>
#include <time.h>

enum { LUNS = 4, ACTIVE = 32, COMMANDS = 40, PLACES = 64, BLOCK = 512, BLOCKS = 8, BYTES = BLOCK * BLOCKS };
enum { FIRST_LUN = 1, ABSENT_LUN = 9, PRIORITY = 10, RETRIES = 3, GUEST_LINK = 1, GUEST_RESET = 2, GUEST_PROBE = 3 };
enum { COMMAND_MS = 1000, RESET_MS = 2000, LINK_MS = 2000, TICK_MS = 10, PROBE_MS = 100, ODD_MS = 120, QUIET_MS = 30000 };
enum { MOST_PROBES = 60, MOST_CCBS = LUNS * COMMANDS, MOST_SEGMENT = 4 << 20 };

/* What a command is. Those from BEYOND on are refused by a disk that is well. */
enum kind { INQUIRE, CAPACITY, READ, WRITE, TEST, REGISTER, BEYOND, UNKNOWN_OPCODE, NACA, COMPARE, ABSENT, KINDS };
enum state { IDLE, WAITING, HELD, IN_DEVICE };

/* Eight blocks of a disk: the generation that was surely written last, and the last that was tried. It holds one between them. If
   the first is 0 nothing is known, and it is written before it is read. */
struct place {
    uint64_t oldest, newest;
    bool is_busy;
};

/* What is kept of a command: its CCB, or 0 if there is none; what it is, and its place, or PLACES if it has none. */
struct slot {
    uint32_t ccb, kind, place;
};

struct command {
    struct lun *lun;
    enum state state;
    enum kind kind;
    bool timed_out;
    struct slot *slot;
    struct place *place;
    struct scsi_task *task;         /* NULL once the connection has none of it any more */
    uint64_t deadline, failed_at;
    unsigned char buffer[BYTES];
};

struct lun {
    unsigned number;
    unsigned waiting, active;
    bool is_held, is_full;          /* it refused a start, and nothing has changed since; for want of an opening */
    enum kind stage;                /* INQUIRE, CAPACITY, and READ for all others */
    enum kind next_odd;
    uint64_t odd_at;
    uint32_t reset_freeze;          /* while its LUN RESET is under way, the freeze of its queue */
    bool reset_is_out, reset_asked;
    uint64_t reset_deadline;
    uint32_t probe_freeze;          /* while it is asked whether it is ready, the freeze of its queue */
    bool probe_is_out, probe_asked, load_asked;
    unsigned probes;
    uint64_t probe_at;
    struct place *places;
    struct command commands[COMMANDS];
};

/* What outlasts the process, as a file that is mapped into memory: what the commands are, what the places may hold, and the counts. */
struct kept {
    struct place places[LUNS][PLACES];
    struct slot slots[LUNS][COMMANDS];
    struct met met;
    uint64_t finished, failed, wrong, read, written;
};

static struct {
    const char *manifest, *folder, *portal, *target;
    struct journal journal;
    struct kept *kept;
    camr_engine *engine;
    uint64_t begun, random;         /* the engine's clock reads 0 at the first */
    struct iscsi_context *link;     /* NULL while there is no connection */
    enum { DOWN, CONNECTING, RESETTING, UP } stage;
    bool is_lost, cancels, is_draining;
    uint64_t link_at;               /* when it is tried again, or given up */
    unsigned resets_left;
    uint32_t link_freeze;
    unsigned live;                  /* how many commands there are */
    struct lun luns[LUNS];
} host;

/* What the last run came to. */
static struct { uint64_t r0; uint32_t fate; uint8_t code; bool ended; } told;

/* Ends the program with a line of text. */
#define end(...) ((void)fprintf(stderr, "transport: " __VA_ARGS__), (void)fputc('\n', stderr), exit(1))

static void expect(camr_result result, const char *call)
{
    char text[128];
    size_t length = 0;
    if (result == CAMR_DONE) return;
    camr_result_text(result, text, sizeof text, &length);
    end("%s: %.*s", call, (int)length, text);
}

static void expect_kept(enum journal_result result)
{
    char text[512];
    if (result == JOURNAL_DONE) return;
    journal_text(&host.journal, text, sizeof text);
    end("%s", text);
}

static uint64_t milliseconds(void)
{
    struct timespec now;
    clock_gettime(CLOCK_MONOTONIC, &now);
    return (uint64_t)now.tv_sec * 1000 + (uint64_t)now.tv_nsec / 1000000;
}

static uint64_t random_below(uint64_t limit)
{
    return ((host.random = host.random * 6364136223846793005u + 1442695040888963407u) >> 33) % limit;
}

/* What a place holds in a generation: each block begins with its disk, its address and the generation, and goes on by these. */
static void fill(unsigned char *bytes, const struct lun *lun, const struct place *place, uint64_t generation)
{
    for (unsigned block = 0; block < BLOCKS; block++) {
        uint64_t words[BLOCK / 8] = {lun->number, (uint64_t)(place - lun->places) * BLOCKS + block, generation};
        uint64_t word = (words[0] << 56 ^ words[1] << 40 ^ generation) * 0x9e3779b97f4a7c15u;
        for (unsigned at = 3; at < BLOCK / 8; at++) words[at] = word += 0xd1b54a32d192ed03u;
        memcpy(bytes + block * BLOCK, words, BLOCK);
    }
}

/* Compares what was read with what its place may hold; from then on it holds what was read. */
static void judge(struct command *command)
{
    static unsigned char expected[BYTES];
    struct place *place = command->place;
    uint64_t generation;
    memcpy(&generation, command->buffer + 16, sizeof generation);
    fill(expected, command->lun, place, generation);
    host.kept->read++;
    bool is_right = generation >= place->oldest && generation <= place->newest && memcmp(expected, command->buffer, BYTES) == 0;
    if (!is_right)
        printf("wrong: LUN %u place %u: generation %" PRIu64 " was read, and %" PRIu64 " to %" PRIu64 " were written\n",
               command->lun->number, (unsigned)(place - command->lun->places), generation, place->oldest, place->newest);
    place->oldest = is_right ? generation : 0;
    if (is_right) place->newest = generation;
    else host.kept->wrong++;
}

/* ---- the trace, the clock and freezes ------------------------------------------------------------------------------------------ */

static void follow_trace(void)
{
    expect_kept(journal_keep(&host.journal, host.engine, NULL, NULL));
}

static void read_clock(uint64_t now)
{
    uint32_t removed;
    expect(camr_clock(host.engine, now - host.begun, &removed), "camr_clock");
    for (struct lun *lun = host.luns; removed != 0 && lun < host.luns + LUNS; lun++) lun->is_held = false;
}

static void release(uint32_t *freeze)
{
    uint32_t left;
    if (*freeze == 0) return;
    expect(camr_guest_release(host.engine, *freeze, &left), "camr_guest_release");
    *freeze = 0;
    for (struct lun *lun = host.luns; lun < host.luns + LUNS; lun++) lun->is_held = false;
}

static void done(struct iscsi_context *link, int status, void *data, void *private);

/* Of each kind of command its operation code, which is its class, the size of its CDB, and how many bytes go which way. */
static const struct { uint8_t opcode, size; int length; enum scsi_xfer_dir direction; } rows[KINDS] = {
    [INQUIRE] = {0x12, 6, 96, SCSI_XFER_READ},       [CAPACITY] = {0x25, 10, 8, SCSI_XFER_READ},
    [READ] = {0x28, 10, BYTES, SCSI_XFER_READ},      [WRITE] = {0x2a, 10, BYTES, SCSI_XFER_WRITE},
    [TEST] = {0x00, 6, 0, SCSI_XFER_NONE},           [REGISTER] = {0x5f, 10, 24, SCSI_XFER_WRITE},
    [BEYOND] = {0x28, 10, BYTES, SCSI_XFER_READ},    [UNKNOWN_OPCODE] = {0xff, 6, 0, SCSI_XFER_NONE},
    [NACA] = {0x00, 6, 0, SCSI_XFER_NONE},           [COMPARE] = {0x2f, 10, BYTES, SCSI_XFER_WRITE},
    [ABSENT] = {0x00, 6, 0, SCSI_XFER_NONE},
};

/* The CDB of a command, its size, and how many bytes go to the device or come from it. */
static enum scsi_xfer_dir describe(const struct command *command, unsigned char cdb[10], int *size, int *length)
{
    uint32_t block = command->place != NULL ? (uint32_t)(command->place - command->lun->places) * BLOCKS : 0;
    memset(cdb, 0, 10);
    cdb[0] = rows[command->kind].opcode;
    *size = rows[command->kind].size;
    *length = rows[command->kind].length;
    if (command->kind == BEYOND) block = 0x7fffff00;
    if (command->kind == INQUIRE) cdb[4] = 96;
    if (command->kind == NACA) cdb[5] = 0x04;
    if (command->kind == COMPARE) cdb[1] = 0x02;
    if (command->kind == REGISTER) cdb[1] = 0x06, cdb[8] = 24; /* register, and ignore the key that there is */
    if (*length != BYTES) return rows[command->kind].direction;
    for (unsigned at = 0; at < 4; at++) cdb[2 + at] = (unsigned char)(block >> (24 - 8 * at));
    cdb[8] = BLOCKS;
    return rows[command->kind].direction;
}

/* Gives a command to the device. If the connection takes none, it is as lost with it. */
static void give(struct command *command)
{
    unsigned char cdb[10];
    int size, length;
    enum scsi_xfer_dir direction = describe(command, cdb, &size, &length);
    struct iscsi_data data = {(size_t)length, command->buffer};
    int lun = command->kind == ABSENT ? ABSENT_LUN : (int)command->lun->number;
    command->state = IN_DEVICE;
    command->timed_out = false;
    command->deadline = milliseconds() + COMMAND_MS;
    command->task = scsi_create_task(size, cdb, direction, length);
    if (command->task == NULL) end("no memory");
    if (direction == SCSI_XFER_READ && scsi_task_add_data_in_buffer(command->task, length, command->buffer) != 0) end("no memory");
    if (iscsi_scsi_command_async(host.link, lun, command->task, done, direction == SCSI_XFER_WRITE ? &data : NULL, command) == 0) return;
    scsi_free_scsi_task(command->task);
    command->task = NULL;
    host.is_lost = true;
}

/* Holds a command until what its policy advised is done. It is begun in the loop. */
static void hold(struct command *command, uint32_t advice)
{
    struct lun *lun = command->lun;
    command->state = HELD;
    bool is_link = advice == CAMR_ADVICE_RECONNECT || advice == CAMR_ADVICE_TARGET_RESET || advice == CAMR_ADVICE_BUS_RESET;
    if (advice == CAMR_ADVICE_LOGICAL_UNIT_RESET && command->failed_at >= lun->reset_deadline) lun->reset_asked = true;
    if (is_link && command->failed_at >= host.link_at && !host.is_lost) host.is_lost = true, host.kept->met.links++;
    if (advice == CAMR_ADVICE_START_UNIT) lun->load_asked = true;
    if (advice == CAMR_ADVICE_START_UNIT || advice == CAMR_ADVICE_TEST_UNIT_READY) lun->probe_asked = true;
}

/* Gives those to the device that were held, if nothing more comes before them. */
static void give_held(struct lun *lun)
{
    if (lun->reset_asked || lun->reset_freeze != 0 || lun->probe_asked || lun->probe_freeze != 0) return;
    for (struct command *command = lun->commands; command < lun->commands + COMMANDS && !host.is_lost; command++)
        if (command->state == HELD) give(command);
}

/* Starts what the queue may start. It is not asked again until something has changed. */
static void start_commands(struct lun *lun)
{
    while (lun->waiting != 0 && lun->active < ACTIVE && !lun->is_held && !host.is_lost) {
        uint32_t ccb, advice;
        camr_result result = camr_dispatch(host.engine, lun->number - FIRST_LUN, &ccb, &advice);
        lun->is_full = result == CAMR_NO_OPENING;
        lun->is_held = lun->is_full || result == CAMR_FROZEN || result == CAMR_CONTROLLER_FROZEN;
        if (lun->is_held) return;
        expect(result, "camr_dispatch");
        struct command *command = lun->commands;
        while (command < lun->commands + COMMANDS && command->slot->ccb != ccb) command++;
        if (command == lun->commands + COMMANDS) end("CCB %" PRIu32 " is no command of this host", ccb);
        lun->waiting--;
        lun->active++;
        advice == CAMR_ADVICE_NONE ? give(command) : hold(command, advice);
    }
}

/* Chooses a free place, and whether it is read or written. */
static void choose_place(struct command *command, const struct lun *lun)
{
    unsigned at = (unsigned)random_below(PLACES);
    while (lun->places[at].is_busy) at = (at + 1) % PLACES;
    struct place *place = command->place = &lun->places[at];
    place->is_busy = true;
    if (command->kind != COMPARE) command->kind = place->oldest == 0 || random_below(3) == 0 ? WRITE : READ;
    if (command->kind == WRITE) place->newest++;
}

/* Makes the bytes that a command sends. */
static void fill_command(struct command *command)
{
    memset(command->buffer, 0, 24);
    command->buffer[15] = (unsigned char)command->lun->number; /* the key that is registered */
    if (command->kind == WRITE) fill(command->buffer, command->lun, command->place, command->place->newest);
    if (command->kind == COMPARE) fill(command->buffer, command->lun, command->place, 0);
}

/* Submits a disk's next command, if there is one to be submitted. */
static void submit(struct command *command)
{
    struct lun *lun = command->lun;
    uint64_t now = milliseconds();
    if (host.is_draining || (lun->stage != READ && lun->waiting + lun->active != 0)) return;
    command->place = NULL;
    command->kind = lun->stage;
    if (lun->stage == READ && now >= lun->odd_at) {
        lun->odd_at = now + ODD_MS;
        command->kind = lun->next_odd;
        lun->next_odd = lun->next_odd + 1 < KINDS ? lun->next_odd + 1 : TEST;
    }
    if (command->kind == READ || command->kind == COMPARE) choose_place(command, lun);
    fill_command(command);
    command->slot->kind = command->kind;
    command->slot->place = command->place != NULL ? (uint32_t)(command->place - lun->places) : PLACES;
    uint8_t opcode = rows[command->kind].opcode;
    expect(camr_submit(host.engine, lun->number - FIRST_LUN, PRIORITY, RETRIES, opcode, &command->slot->ccb), "camr_submit");
    command->state = WAITING;
    lun->waiting++;
    host.live++;
}

/* A command has come to its end. */
static void finish(struct command *command, unsigned code)
{
    struct place *place = command->place;
    struct lun *lun = command->lun;
    bool is_good = code == CAMR_REQ_CMP;
    command->state = IDLE;
    host.live--;
    host.kept->finished++;
    if (!is_good) host.kept->failed++;
    if (command->kind == lun->stage && lun->stage < READ) {
        if (!is_good) end("LUN %u cannot be asked what it is", lun->number);
        if (lun->stage == INQUIRE && (command->buffer[0] & 0x1f) != 0) end("LUN %u is no disk", lun->number);
        if (lun->stage == CAPACITY && (command->buffer[6] << 8 | command->buffer[7]) != BLOCK) end("LUN %u has other blocks", lun->number);
        lun->stage++;
    }
    if (place != NULL) place->is_busy = false;
    if (command->kind == READ && is_good) judge(command);
    if (command->kind == READ && !is_good) place->oldest = 0; /* a write heals it */
    if (command->kind == WRITE && is_good) place->oldest = place->newest, host.kept->written++;
    command->slot->ccb = 0;
}

/* Reports a command to the engine, and lets the policy decide if it failed. */
static void report(struct command *command, uint8_t status, uint8_t scsi, const unsigned char *sense, size_t length)
{
    struct lun *lun = command->lun;
    camr_run *run = NULL;
    if (status != CAMR_REQ_CMP) {
        met_failure(&host.kept->met, status, scsi, sense, length);
        read_clock(milliseconds()); /* a timer counts from the last reading */
        follow_trace();
    }
    expect(camr_complete(host.engine, command->slot->ccb, status, scsi, sense, length, &run), "camr_complete");
    lun->active--, lun->is_held = lun->is_held && !lun->is_full;
    if (run == NULL) {
        finish(command, CAMR_REQ_CMP);
        return;
    }
    expect(camr_drive(host.engine, run, &told.r0, &told.ended, &told.fate, &told.code), "camr_drive");
    camr_run_free(run);
    lun->is_held = false;
    if (told.fate == CAMR_FINISHED) finish(command, told.code);
    else if (told.fate == CAMR_REQUEUED) command->state = WAITING, lun->waiting++, command->failed_at = milliseconds();
    else end("a run kept its command");
}

/* The connection has an answer, or none any more: what it cancels was cut off, and is reported when a new connection is there. */
static void done(struct iscsi_context *link, int status, void *data, void *private)
{
    struct command *command = private;
    struct scsi_task *task = command->task;
    const unsigned char *sense = NULL;
    size_t length = 0;
    (void)link, (void)data;
    command->task = NULL;
    if (status == SCSI_STATUS_CANCELLED || status == SCSI_STATUS_ERROR || status == SCSI_STATUS_TIMEOUT) {
        if (!host.cancels) host.is_lost = true;
        scsi_free_scsi_task(task);
        return;
    }
    if (status == SCSI_STATUS_CHECK_CONDITION && task->datain.size > 2) {
        sense = task->datain.data + 2; /* after the two bytes of its length */
        length = (size_t)(task->datain.data[0] << 8 | task->datain.data[1]);
        if (length > (size_t)task->datain.size - 2) length = (size_t)task->datain.size - 2;
    }
    report(command, status == SCSI_STATUS_GOOD ? CAMR_REQ_CMP : CAMR_SCSI_STATUS_ERROR, (uint8_t)status, sense, length);
    scsi_free_scsi_task(task);
    if (command->state == IDLE) submit(command);
    start_commands(command->lun);
}

static void lun_is_reset(struct iscsi_context *link, int status, void *data, void *private)
{
    struct lun *lun = private;
    (void)link;
    if (host.cancels) return;
    if (status != SCSI_STATUS_GOOD || *(uint32_t *)data != ISCSI_TMR_FUNC_COMPLETE) host.is_lost = true;
    else if (host.stage == RESETTING) host.resets_left--;
    else lun->reset_is_out = lun->probe_is_out = false; /* the probe went with the rest, and is not answered */
}

/* Whether the connection has nothing left to send, which a LUN RESET would overtake. Nothing goes out that is not in the journal. */
static bool all_is_sent(void)
{
    follow_trace();
    if (iscsi_service(host.link, POLLOUT) < 0) host.is_lost = true;
    return iscsi_out_queue_length(host.link) == 0;
}

static void send_reset(struct lun *lun)
{
    lun->reset_is_out = true;
    lun->reset_deadline = milliseconds() + RESET_MS;
    if (iscsi_task_mgmt_async(host.link, (int)lun->number, ISCSI_TM_LUN_RESET, 0xffffffff, 0, lun_is_reset, lun) != 0) host.is_lost = true;
}

/* Reports all that the device had: it surely has none of it any more. */
static void report_all(struct lun *lun, uint8_t others)
{
    for (struct command *command = lun->commands; command < lun->commands + COMMANDS; command++) {
        if (command->state != IN_DEVICE || (command->kind == ABSENT && others == CAMR_BDR_SENT)) continue;
        host.cancels = true;
        if (command->task != NULL && iscsi_scsi_cancel_task(host.link, command->task) != 0) host.is_lost = true;
        host.cancels = false;
        if (command->task != NULL) continue; /* it is half sent, and goes with the connection */
        report(command, command->timed_out ? CAMR_CMD_TIMEOUT : others, 0, NULL, 0);
    }
    release(&lun->reset_freeze), lun->reset_deadline = milliseconds();
}

static void probed(struct iscsi_context *link, int status, void *data, void *private)
{
    struct lun *lun = private;
    struct scsi_task *task = data;
    bool is_refused = status == SCSI_STATUS_CHECK_CONDITION && task != NULL && task->sense.key != SCSI_SENSE_UNIT_ATTENTION;
    (void)link;
    if (task != NULL) scsi_free_scsi_task(task);
    if (host.cancels) return;
    lun->probe_is_out = false;
    lun->probe_at = milliseconds() + PROBE_MS;
    if (status == SCSI_STATUS_GOOD && !lun->load_asked) release(&lun->probe_freeze);
    if (status == SCSI_STATUS_GOOD || is_refused) lun->load_asked = false;
}

/* Asks a disk to load its medium and to start, if that was asked for, and then whether it is ready, until it is. */
static void probe(struct lun *lun)
{
    if (++lun->probes > MOST_PROBES) release(&lun->probe_freeze); /* its commands fail, and the policy decides */
    if (lun->probe_freeze == 0) return;
    lun->probe_is_out = true, lun->probe_at = milliseconds();
    *(lun->load_asked ? &host.kept->met.loads : &host.kept->met.tests) += 1;
    struct scsi_task *task = lun->load_asked ? iscsi_startstopunit_task(host.link, (int)lun->number, 1, 0, 0, 0, 1, 1, probed, lun)
                                             : iscsi_testunitready_task(host.link, (int)lun->number, probed, lun);
    if (task == NULL) host.is_lost = true;
}

/* What a disk's time brings: time-outs, a reset that was asked for or answered, a probe, more commands. */
static void look_after(struct lun *lun, uint64_t now)
{
    for (struct command *command = lun->commands; command < lun->commands + COMMANDS; command++) {
        if (command->state == IDLE) submit(command);
        if (command->state != IN_DEVICE || command->timed_out || now < command->deadline) continue;
        command->timed_out = true;
        if (command->kind == ABSENT) host.is_lost = true; /* no reset of this LUN ends it */
        else lun->reset_asked = lun->reset_asked || lun->reset_freeze == 0;
    }
    if (lun->reset_asked && lun->reset_freeze == 0) {
        expect(camr_guest_freeze(host.engine, lun->number - FIRST_LUN, GUEST_RESET, &lun->reset_freeze), "camr_guest_freeze");
        lun->reset_deadline = now + RESET_MS;
        host.kept->met.resets++;
    }
    if (lun->reset_asked && !lun->reset_is_out && all_is_sent()) {
        lun->reset_asked = false;
        send_reset(lun); /* the barrier: nothing is reported before this is answered */
    }
    if (lun->reset_freeze != 0 && !lun->reset_asked && !lun->reset_is_out) report_all(lun, CAMR_BDR_SENT);
    if (lun->reset_freeze != 0 && now >= lun->reset_deadline) host.is_lost = true;
    if (lun->probe_asked && lun->probe_freeze == 0) {
        expect(camr_guest_freeze(host.engine, lun->number - FIRST_LUN, GUEST_PROBE, &lun->probe_freeze), "camr_guest_freeze");
        lun->probe_asked = false, lun->probes = 0, lun->probe_at = now;
    }
    if (lun->probe_is_out && now >= lun->probe_at + RESET_MS) host.is_lost = true;
    if (lun->probe_freeze != 0 && !lun->probe_is_out && lun->reset_freeze == 0 && now >= lun->probe_at) probe(lun);
    give_held(lun);
    start_commands(lun);
}

/* ---- the connection ------------------------------------------------------------------------------------------------------------- */

static void logged_in(struct iscsi_context *link, int status, void *data, void *private)
{
    (void)link, (void)data, (void)private;
    host.is_lost = status != SCSI_STATUS_GOOD && !host.cancels;
    if (status != SCSI_STATUS_GOOD) return;
    host.stage = RESETTING;
    host.resets_left = LUNS;
    for (struct lun *lun = host.luns; lun < host.luns + LUNS; lun++) send_reset(lun);
}

static void connected(struct iscsi_context *link, int status, void *data, void *private)
{
    (void)data, (void)private;
    if (!host.cancels && (status != SCSI_STATUS_GOOD || iscsi_login_async(link, logged_in, NULL) != 0)) host.is_lost = true;
}

/* Freezes the controller, and gives the connection up with what it has. The commands stay active: the target may have them. */
static void drop_link(uint64_t now)
{
    host.is_lost = false;
    if (host.link_freeze == 0)
        expect(camr_guest_freeze_controller(host.engine, 0, GUEST_LINK, &host.link_freeze), "camr_guest_freeze_controller");
    host.cancels = true;
    if (host.link != NULL) iscsi_destroy_context(host.link);
    host.cancels = false;
    host.link = NULL;
    host.stage = DOWN;
    host.link_at = now + PROBE_MS;
}

/* Begins a new connection. It has the same name as the one before, so that the target ends that one's session first. */
static void begin_link(uint64_t now)
{
    host.link = iscsi_create_context("iqn.2026-11.test:transport");
    if (host.link == NULL) end("no memory");
    iscsi_set_targetname(host.link, host.target);
    iscsi_set_session_type(host.link, ISCSI_SESSION_NORMAL);
    iscsi_set_header_digest(host.link, ISCSI_HEADER_DIGEST_NONE);
    iscsi_set_isid_oui(host.link, 0xca, 1);
    iscsi_set_noautoreconnect(host.link, 1);
    host.stage = CONNECTING;
    host.link_at = now + LINK_MS;
    if (iscsi_connect_async(host.link, host.portal, connected, NULL) != 0) host.is_lost = true;
}

static void look_after_link(uint64_t now)
{
    if (host.is_lost || ((host.stage == CONNECTING || host.stage == RESETTING) && now >= host.link_at)) drop_link(now);
    if (host.stage == DOWN && now >= host.link_at) begin_link(now);
    if (host.stage != RESETTING || host.is_lost || host.resets_left != 0) return;
    /* each LUN was reset through the new connection: what the last one had is reported, and all goes on */
    for (struct lun *lun = host.luns; lun < host.luns + LUNS; lun++) {
        lun->reset_is_out = lun->reset_asked = lun->probe_is_out = false;
        report_all(lun, CAMR_SCSI_BUS_RESET);
    }
    release(&host.link_freeze);
    host.stage = UP, host.link_at = milliseconds();
}

/* Waits for the connection, at most until the next timer is due. */
static void serve_link(uint64_t now)
{
    uint64_t due = 0, wait = TICK_MS;
    bool is_due = false;
    expect(camr_next_due(host.engine, &is_due, &due), "camr_next_due");
    if (is_due && due + host.begun < now + wait) wait = due + host.begun > now ? due + host.begun - now : 0;
    struct pollfd place = {-1, 0, 0};
    if (host.link != NULL) {
        place.fd = iscsi_get_fd(host.link);
        place.events = (short)iscsi_which_events(host.link);
        if (place.fd < 0) host.is_lost = true;
    }
    short came = poll(&place, 1, (int)wait) > 0 ? place.revents : 0;
    if ((came & ~POLLOUT) != 0 && iscsi_service(host.link, came & ~POLLOUT) < 0) host.is_lost = true;
    if ((came & POLLOUT) != 0 && !host.is_lost) all_is_sent();
    now = milliseconds();
    if (is_due && due + host.begun <= now) read_clock(now);
}

static void say_how_far(uint64_t records)
{
    unsigned long pages = 0;
    FILE *file = fopen("/proc/self/statm", "r");
    if (file == NULL || fscanf(file, "%*u %lu", &pages) != 1) end("/proc/self/statm cannot be read");
    fclose(file);
    printf("%" PRIu64 " commands, %" PRIu64 " records in segment %" PRIu64 ", %" PRIu64 " wrong, %lu KB\n", host.kept->finished, records,
           host.journal.number, host.kept->wrong, pages * ((unsigned long)sysconf(_SC_PAGESIZE) / 1024));
}

/* Goes on until that time, and then until nothing is left. */
static void run_until(uint64_t last)
{
    uint64_t tick_at = 0, said_at = milliseconds();
    camr_totals_t totals;
    for (uint64_t now = milliseconds();; now = milliseconds()) {
        serve_link(now), look_after_link(milliseconds());
        if (now < tick_at) continue;
        tick_at = now + TICK_MS;
        for (struct lun *lun = host.luns; lun < host.luns + LUNS && host.stage == UP; lun++) look_after(lun, now);
        follow_trace();
        expect(camr_totals(host.engine, &totals), "camr_totals");
        if (host.journal.length > MOST_SEGMENT && totals.runs == 0)
            expect_kept(journal_rotate(&host.journal, &host.engine, NULL, 0, false, NULL, NULL));
        if (now >= said_at + 1000) say_how_far(totals.history), said_at = now;
        host.is_draining = now >= last;
        if (now >= last + QUIET_MS) end("not all came to an end: %u commands are left", host.live);
        if (host.is_draining && host.live == 0 && totals.frozen == 0 && totals.active == 0 && totals.runs == 0) return;
    }
}

/* Starts on the journal, which says that nobody else has the other file either. */
static void open_journal(void)
{
    char *manifest, path[4096];
    size_t length;
    if (!journal_read(AT_FDCWD, host.manifest, &manifest, &length)) end("%s: %s", host.manifest, strerror(errno));
    expect_kept(journal_start(&host.journal, host.folder, manifest, length, false, &host.engine));
    free(manifest);
    snprintf(path, sizeof path, "%s.kept", host.folder);
    int file = open(path, O_RDWR | O_CREAT, 0666);
    if (file < 0 || ftruncate(file, sizeof *host.kept) != 0) end("%s: %s", path, strerror(errno));
    host.kept = mmap(NULL, sizeof *host.kept, PROT_READ | PROT_WRITE, MAP_SHARED, file, 0);
    if (host.kept == MAP_FAILED) end("%s: %s", path, strerror(errno));
    close(file);
}

/* A command is as before, if the engine has its CCB: the number of which is taken from the list then. */
static void carry_command(struct command *command, uint32_t *numbers, const uint32_t *states, size_t count)
{
    struct lun *lun = command->lun;
    struct slot *slot = command->slot;
    size_t at = 0;
    while (at < count && numbers[at] != slot->ccb) at++;
    if (at == count) slot->ccb = 0;
    if (slot->ccb == 0) return;
    numbers[at] = 0;
    command->kind = slot->kind;
    command->place = slot->place < PLACES ? &lun->places[slot->place] : NULL;
    if (command->place != NULL) command->place->is_busy = true;
    fill_command(command);
    command->state = states[at] == CAMR_ACTIVE ? IN_DEVICE : WAITING;
    *(command->state == IN_DEVICE ? &lun->active : &lun->waiting) += 1;
    host.live++;
}

/* Goes on from where the journal leads. Runs that were out come to their ends. A command that is active may be in its disk: it is reported
   as all are that a lost connection took, once the LUN is reset. The freezes are held on, and given back as ever; that of a disk that was
   asked whether it is ready is given back when it is looked after, and the policy asks again. */
static void carry_on(void)
{
    static uint32_t numbers[MOST_CCBS], states[MOST_CCBS];
    camr_run *run;
    size_t count;
    host.begun = milliseconds() - host.journal.clock;
    for (; camr_take_run(host.engine, &run) == CAMR_DONE; camr_run_free(run))
        expect(camr_drive(host.engine, run, &told.r0, &told.ended, &told.fate, &told.code), "camr_drive");
    expect(camr_ccbs(host.engine, 0, numbers, states, MOST_CCBS, &count), "camr_ccbs");
    for (struct lun *lun = host.luns; lun < host.luns + LUNS; lun++)
        for (unsigned at = 0; at < COMMANDS; at++) carry_command(&lun->commands[at], numbers, states, count);
    for (size_t at = 0; at < count; at++) /* what is in no slot had come to its end, and only its lines are missing */
        if (numbers[at] != 0 && states[at] == CAMR_WAITING) expect(camr_withdraw(host.engine, numbers[at]), "camr_withdraw");
        else if (numbers[at] != 0) expect(camr_complete(host.engine, numbers[at], CAMR_REQ_CMP, 0, NULL, 0, &run), "camr_complete");
    for (const struct journal_freeze *its = host.journal.freezes; its < host.journal.freezes + host.journal.freeze_count; its++) {
        if (its->guest < GUEST_LINK || its->guest > GUEST_PROBE || (!its->is_controller && its->place >= LUNS)) continue;
        struct lun *lun = &host.luns[its->is_controller ? 0 : its->place];
        *(its->guest == GUEST_LINK ? &host.link_freeze : its->guest == GUEST_RESET ? &lun->reset_freeze : &lun->probe_freeze) = its->freeze;
        lun->probes = MOST_PROBES;
    }
    printf("segment %" PRIu64 ": %zu CCBs and %zu freezes of guests are carried on\n", host.journal.number, count, host.journal.freeze_count);
}

int main(int count, char **words)
{
    unsigned long seconds = count == 6 ? strtoul(words[5], NULL, 10) : 0;
    if (seconds == 0) return fputs("usage: transport MANIFEST JOURNAL PORTAL TARGET SECONDS\n", stderr), 2;
    setvbuf(stdout, NULL, _IOLBF, 0);
    signal(SIGPIPE, SIG_IGN); /* libiscsi writes to a connection that may have ended */
    host.manifest = words[1], host.folder = words[2], host.portal = words[3], host.target = words[4];
    host.random = milliseconds();
    open_journal();
    for (unsigned number = 0; number < LUNS; number++) {
        struct lun *lun = &host.luns[number];
        lun->number = number + FIRST_LUN;
        lun->next_odd = TEST + number % (KINDS - TEST);
        lun->places = host.kept->places[number];
        for (unsigned at = 0; at < PLACES; at++) lun->places[at].is_busy = false;
        for (unsigned at = 0; at < COMMANDS; at++) lun->commands[at].lun = lun, lun->commands[at].slot = &host.kept->slots[number][at];
    }
    carry_on();
    uint64_t begun = milliseconds();
    drop_link(begun);
    run_until(begun + seconds * 1000);
    host.cancels = true;
    if (host.link != NULL) iscsi_destroy_context(host.link);
    expect_kept(journal_end(&host.journal, host.engine, NULL, NULL));
    journal_close(&host.journal);
    camr_close(host.engine);
    met_print(&host.kept->met);
    printf("%" PRIu64 " commands, %" PRIu64 " without success, %" PRIu64 " places read, %" PRIu64 " written, %" PRIu64 " wrong\n",
           host.kept->finished, host.kept->failed, host.kept->read, host.kept->written, host.kept->wrong);
    return host.kept->wrong == 0 ? 0 : 1;
}
