/* Tries examples/journal.h below a folder, which is empty, and ends with the number of the line where something is otherwise. It leaves
   journals there, which `camr audit` is to accept: `cut`, `rotated`, `full` and `shut`. */
#define _POSIX_C_SOURCE 200809L
#include <signal.h>
#include <stdbool.h>
#include <stdlib.h>
#include <sys/resource.h>

/* How many blocks are given before one is refused; with a number below 0 none is. */
static long before_refusal = -1;

static bool is_refused(void) { return before_refusal >= 0 && before_refusal-- == 0; }
static void *tried_malloc(size_t n) { return is_refused() ? NULL : malloc(n); }
static void *tried_realloc(void *p, size_t n) { return is_refused() ? NULL : realloc(p, n); }

#define malloc(n) tried_malloc(n)
#define realloc(p, n) tried_realloc(p, n)
#define CAMR_ENGINE_HEAP
#include "journal.h"

#define WANT(fact) do { if (!(fact)) { fprintf(stderr, "c-journal.c:%d: not so: %s\n", __LINE__, #fact); exit(1); } } while (0)

#define QUEUE "[[queue]]\nopenings = 2\ncontroller = 0\nprogram = \"p\"\n"
#define PROGRAM "[[program]]\nname = \"p\"\nasm = \"\"\"\njeq r2, 0, requeue\nmov64 r1, r2\nmov64 r2, 500\ncall 3\nrequeue:\nmov64 r1, 1\ncall 4\nmov64 r0, 0\nexit\n\"\"\"\n"
static const char two[] = "version = 2\ncontrollers = 1\n" QUEUE QUEUE PROGRAM;
static const char one[] = "version = 2\ncontrollers = 1\n" QUEUE PROGRAM;

static struct journal journal, second;
static uint32_t advice, fate;
static uint8_t code;
static char seen[1 << 16];

static void put(const char *path, const char *text, size_t length)
{
    FILE *file = fopen(path, "wb");
    WANT(file != NULL && fwrite(text, 1, length, file) == length && fclose(file) == 0);
}

/* What a file has, until the next call. */
static const char *got(const char *path, size_t *length)
{
    static char *text;
    free(text);
    WANT(journal_read(AT_FDCWD, path, &text, length));
    return text;
}

static enum journal_result start(const char *folder, const char *manifest, camr_engine **engine)
{
    return journal_start(&journal, folder, manifest, manifest != NULL ? strlen(manifest) : 0, false, engine);
}

static void stop(camr_engine *engine)
{
    journal_close(&journal);
    camr_close(engine);
}

/* What the last fault says. */
static const char *told(void)
{
    static char text[512];
    journal_text(&journal, text, sizeof text);
    return text;
}

static void keep(camr_engine *engine)
{
    WANT(journal_keep(&journal, engine, NULL, NULL) == JOURNAL_DONE);
}

static void see(void *argument, const char *lines)
{
    WANT(argument == seen && strlen(seen) + strlen(lines) < sizeof seen && lines[strlen(lines) - 1] == '\n');
    strcat(seen, lines);
}

/* A CCB that waits, one that is active, two guests' freezes of three, and a clock. */
static void work(camr_engine *engine)
{
    uint32_t it;
    WANT(camr_submit(engine, 0, 0, 1, 0, &it) == CAMR_DONE && camr_submit(engine, 0, 0, 1, 0, &it) == CAMR_DONE);
    WANT(camr_submit(engine, 1, 0, 1, 0, &it) == CAMR_DONE && camr_dispatch(engine, 1, &it, &advice) == CAMR_DONE && it == 3);
    WANT(camr_clock(engine, 1000, &it) == CAMR_DONE && camr_clock(engine, 999, &it) == CAMR_GOES_BACK);
    WANT(camr_guest_freeze(engine, 0, 7, &it) == CAMR_DONE && it == 1 && camr_guest_freeze(engine, 1, 8, &it) == CAMR_DONE);
    WANT(camr_guest_freeze_controller(engine, 0, 9, &it) == CAMR_DONE && it == 3 && camr_guest_release(engine, 2, &it) == CAMR_DONE);
}

/* Freezes 1 of queue 0 and 3 of the controller are found, and the clock, as `work` left them. */
static void has_found(uint32_t first, uint32_t last)
{
    WANT(journal.clock == 1000 && journal.freeze_count == 2);
    WANT(journal.freezes[0].freeze == first && journal.freezes[0].guest == 7 && journal.freezes[0].place == 0 && !journal.freezes[0].is_controller);
    WANT(journal.freezes[1].freeze == last && journal.freezes[1].guest == 9 && journal.freezes[1].place == 0 && journal.freezes[1].is_controller);
}

static void begins(void)
{
    camr_engine *engine, *other;
    size_t length;
    WANT(start("new", NULL, &engine) == JOURNAL_FOREIGN && engine == NULL && access("new", F_OK) != 0);
    WANT(start("new", "version = 9", &engine) == JOURNAL_FAULTY && access("new", F_OK) != 0 && strncmp(told(), "new: M", 6) == 0);
    WANT(start("new", "\xff", &engine) == JOURNAL_FAULTY && strcmp(told(), "new: not UTF-8") == 0);
    WANT(start("none/new", two, &engine) == JOURNAL_FILE && journal.error == ENOENT && strncmp(told(), "file none/new: ", 15) == 0);
    WANT(start("new", two, &engine) == JOURNAL_DONE && journal.begun == JOURNAL_NEW && journal.number == 1 && journal.length == 13);
    WANT(journal_start(&second, "new", NULL, 0, false, &other) == JOURNAL_IN_USE && other == NULL);
    WANT(strcmp(got("new/000001.trace", &length), "camr-trace 2\n") == 0 && strcmp(got("new/000001.toml", &length), two) == 0);
    keep(engine);
    stop(engine);
    /* the first line alone; it is not written twice */
    WANT(start("new", NULL, &engine) == JOURNAL_DONE && journal.begun == JOURNAL_RECOVERED && journal.freeze_count == 0);
    work(engine);
    seen[0] = '\0';
    WANT(journal_keep(&journal, engine, see, seen) == JOURNAL_DONE && strncmp(seen, "submit 0 0 1 = ccb 1\n", 21) == 0);
    WANT(strcmp(got("new/000001.trace", &length) + 13, seen) == 0 && journal.length == length);
    stop(engine);
    WANT(start("new", one, &engine) == JOURNAL_OTHER_MANIFEST && strcmp(told(), "new: J2") == 0);
    WANT(start("new", two, &engine) == JOURNAL_DONE);
    has_found(1, 3);
    stop(engine);
}

/* Names that are those of no journal, and others that are. */
static void lists(void)
{
    camr_engine *engine;
    static const char *const foreign[] = {"note", "000000.trace", "00001.trace", "0000003.trace", "000003.trace", "000001.tracex", "1000000000000000000.toml"};
    for (size_t which = 0; which < sizeof foreign / sizeof *foreign; which++) {
        char path[64];
        snprintf(path, sizeof path, "new/%s", foreign[which]);
        put(path, "", 0);
        WANT(start("new", NULL, &engine) == JOURNAL_FOREIGN && strcmp(told(), "new: J1") == 0);
        remove(path);
    }
    put("new/000002.toml", "", 0);
    put("new/any.new", "", 0);
    WANT(start("new", NULL, &engine) == JOURNAL_DONE && journal.number == 1);
    stop(engine);
    put("new/000007.toml", "", 0);
    WANT(start("new", NULL, &engine) == JOURNAL_FOREIGN);
    remove("new/000007.toml");
    rename("new/000001.toml", "aside");
    WANT(start("new", NULL, &engine) == JOURNAL_FOREIGN);
    rename("aside", "new/000001.toml");
}

/* A segment that is cut at each of its bytes leads to its whole lines; only one that has not its first line does not. */
static void is_cut(void)
{
    camr_engine *engine;
    camr_totals_t totals;
    size_t length, whole, after;
    char *text;
    WANT(journal_read(AT_FDCWD, "new/000001.trace", &text, &length));
    WANT(mkdir("cut", 0777) == 0);
    put("cut/000001.toml", two, sizeof two - 1);
    for (size_t cut = 0; cut <= length; cut++) {
        put("cut/000001.trace", text, cut);
        if (cut < 13) {
            WANT(start("cut", NULL, &engine) == JOURNAL_FAULTY && strcmp(told(), "cut: 000001.trace X1 at 1") == 0);
            got("cut/000001.trace", &after);
            WANT(after == cut);
            continue;
        }
        for (whole = cut; text[whole - 1] != '\n'; whole--) continue;
        WANT(start("cut", NULL, &engine) == JOURNAL_DONE && journal.length == whole);
        uint32_t it;
        WANT(camr_totals(engine, &totals) == CAMR_DONE && camr_clock(engine, 2000, &it) == CAMR_DONE);
        keep(engine);
        stop(engine);
        const char *left = got("cut/000001.trace", &after);
        WANT(after == whole + 15 && memcmp(left, text, whole) == 0 && strcmp(left + whole, "clock 2000 = 0\n") == 0);
    }
    free(text);
}

static void is_faulty(void)
{
    camr_engine *engine;
    size_t length;
    char *text;
    WANT(journal_read(AT_FDCWD, "new/000001.trace", &text, &length));
    put("new/000001.trace", "camr-trace 2\nclock 5 = 1\n", 25);
    WANT(start("new", NULL, &engine) == JOURNAL_FAULTY && strcmp(told(), "new: 000001.trace X3 at 2") == 0);
    put("new/000001.trace", "camr-trace 2\n\0\0\0", 16);
    WANT(start("new", NULL, &engine) == JOURNAL_FAULTY && strcmp(told(), "new: 000001.trace X2 at 2") == 0);
    put("new/000001.trace", "camr-trace 2\n\xff\n", 15);
    WANT(start("new", NULL, &engine) == JOURNAL_FAULTY && strcmp(told(), "new: 000001.trace not UTF-8") == 0);
    put("new/000001.toml", "version = 2", 11);
    WANT(start("new", NULL, &engine) == JOURNAL_FAULTY && strncmp(told(), "new: 000001.toml M", 18) == 0);
    put("new/000001.toml", "\xff", 1);
    WANT(start("new", NULL, &engine) == JOURNAL_FAULTY && strcmp(told(), "new: 000001.toml not UTF-8") == 0);
    put("new/000001.toml", two, sizeof two - 1);
    put("new/000001.trace", text, length);
    free(text);
}

/* Runs that were out are taken, and one that was parked is left; no engine follows one with a live run. */
static void has_runs(void)
{
    static const char runs[] = "camr-trace 2\nsubmit 0 0 1 = ccb 1\nsubmit 1 0 1 = ccb 2\ndispatch 0 = ccb 1\ndispatch 1 = ccb 2\n"
                               "complete 1 0b 00 - = run 1 freeze 1\ncomplete 2 0b 00 - = run 2 freeze 2\npark 2 = ok\n";
    camr_engine *engine;
    camr_run *run;
    camr_totals_t totals;
    uint64_t r0;
    bool ended;
    size_t length;
    WANT(mkdir("runs", 0777) == 0);
    put("runs/000001.toml", two, sizeof two - 1);
    put("runs/000001.trace", runs, sizeof runs - 1);
    WANT(start("runs", NULL, &engine) == JOURNAL_DONE && journal.freeze_count == 0);
    WANT(camr_take_run(engine, &run) == CAMR_DONE && camr_drive(engine, run, &r0, &ended, &fate, &code) == CAMR_DONE && ended);
    camr_run_free(run);
    WANT(camr_take_run(engine, &run) == CAMR_UNKNOWN);
    WANT(journal_rotate(&journal, &engine, NULL, 0, false, NULL, NULL) == JOURNAL_RUN_LIVE && !journal.is_broken && journal.number == 1);
    WANT(journal_end(&journal, engine, NULL, NULL) == JOURNAL_DONE && camr_totals(engine, &totals) == CAMR_DONE && totals.runs == 1);
    stop(engine);
    WANT(strstr(got("runs/000001.trace", &length), "end ") == NULL);
    WANT(start("runs", NULL, &engine) == JOURNAL_DONE && camr_resume(engine, 2, &run) == CAMR_DONE);
    WANT(camr_drive(engine, run, &r0, &ended, &fate, &code) == CAMR_DONE && ended);
    camr_run_free(run);
    WANT(journal_rotate(&journal, &engine, NULL, 0, false, NULL, NULL) == JOURNAL_DONE && journal.number == 2);
    stop(engine);
    put("runs/000002.trace", runs, sizeof runs - 1);
    FILE *file = fopen("runs/000002.trace", "ab");
    WANT(file != NULL && fputs("end 7 2 0 2\n", file) >= 0 && fclose(file) == 0);
    WANT(start("runs", one, &engine) == JOURNAL_RUN_LIVE && strcmp(told(), "runs: N3") == 0);
}

/* Segments that follow one another while the engine runs, and at a start, by the same numbers and fresh ones. */
static void rotates(void)
{
    camr_engine *engine;
    camr_run *run;
    uint32_t numbers[4], states[4], it;
    size_t count, length;
    WANT(journal_start(&journal, "rotated", two, sizeof two - 1, true, &engine) == JOURNAL_DONE);
    work(engine);
    seen[0] = '\0';
    WANT(journal_rotate(&journal, &engine, NULL, 0, false, see, seen) == JOURNAL_DONE && strlen(seen) > 100);
    WANT(journal.number == 2 && journal.begun == JOURNAL_NEW);
    has_found(1, 3);
    WANT(strcmp(got("rotated/000002.toml", &length), two) == 0 && strncmp(got("rotated/000002.trace", &length), "camr-trace 2 continued\n", 23) == 0);
    WANT(journal.length == length && strstr(got("rotated/000001.trace", &length), "\nend 10 2 1 0\n") != NULL);
    WANT(camr_guest_freeze(engine, 1, 5, &it) == CAMR_DONE && it == 4);
    /* what does not fit, or is faulty, leaves it as it was */
    WANT(journal_rotate(&journal, &engine, one, sizeof one - 1, true, NULL, NULL) == JOURNAL_DOES_NOT_FIT && strcmp(told(), "rotated: N4") == 0);
    WANT(journal_rotate(&journal, &engine, "x", 1, true, NULL, NULL) == JOURNAL_FAULTY && !journal.is_broken);
    WANT(camr_guest_release(engine, 4, &it) == CAMR_DONE);
    keep(engine);
    stop(engine);
    WANT(start("rotated", NULL, &engine) == JOURNAL_DONE && journal.begun == JOURNAL_RECOVERED && journal.number == 2);
    has_found(1, 3);
    WANT(camr_complete(engine, 3, CAMR_REQ_CMP, 0, NULL, 0, &run) == CAMR_DONE && run == NULL);
    WANT(journal_rotate(&journal, &engine, one, sizeof one - 1, true, NULL, NULL) == JOURNAL_DONE && journal.number == 3);
    has_found(1, 2);
    WANT(camr_ccbs(engine, 0, numbers, states, 4, &count) == CAMR_DONE && count == 2 && numbers[0] == 1 && numbers[1] == 2);
    WANT(camr_guest_release(engine, 1, &it) == CAMR_DONE && camr_guest_release(engine, 2, &it) == CAMR_DONE);
    WANT(journal_end(&journal, engine, NULL, NULL) == JOURNAL_DONE);
    WANT(journal_keep(&journal, engine, NULL, NULL) == JOURNAL_FILE && journal_end(&journal, engine, NULL, NULL) == JOURNAL_FILE);
    stop(engine);
    /* its engine was shut, and a start that came to no end left some files: another one follows, of another manifest */
    put("rotated/000004.toml", one, sizeof one - 1);
    put("rotated/000004.trace.new", "camr-tr", 7);
    WANT(start("rotated", two, &engine) == JOURNAL_DONE && journal.begun == JOURNAL_FOLLOWED && journal.number == 4);
    WANT(journal.clock == 1000 && journal.freeze_count == 0);
    WANT(camr_submit(engine, 1, 0, 1, 0, &it) == CAMR_DONE && it == 3);
    WANT(journal_end(&journal, engine, NULL, NULL) == JOURNAL_DONE);
    stop(engine);
    WANT(start("rotated", one, &engine) == JOURNAL_DOES_NOT_FIT && start("rotated", NULL, &engine) == JOURNAL_DONE && journal.number == 5);
    keep(engine);
    stop(engine);
    WANT(start("rotated", two, &engine) == JOURNAL_DONE && journal.begun == JOURNAL_RECOVERED && journal.number == 5);
    stop(engine);
    /* old segments may go */
    WANT(remove("rotated/000001.trace") == 0 && remove("rotated/000001.toml") == 0 && start("rotated", two, &engine) == JOURNAL_DONE);
    stop(engine);
}

/* A disk is full within a line. Nothing is lost, and it goes on as soon as there is room. */
static void is_full(void)
{
    camr_engine *engine;
    struct rlimit limit, before;
    uint32_t it;
    size_t length;
    WANT(start("full", two, &engine) == JOURNAL_DONE);
    WANT(getrlimit(RLIMIT_FSIZE, &before) == 0);
    limit = before;
    for (limit.rlim_cur = 20; limit.rlim_cur < 400; limit.rlim_cur += 23) {
        WANT(setrlimit(RLIMIT_FSIZE, &limit) == 0);
        do WANT(camr_dispatch(engine, 0, &it, &advice) == CAMR_NOTHING_WAITS);
        while (journal_keep(&journal, engine, NULL, NULL) == JOURNAL_DONE);
        WANT(journal.result == JOURNAL_FILE && journal.error == EFBIG && strncmp(told(), "file full/000001.trace: ", 24) == 0);
        WANT(journal_keep(&journal, engine, NULL, NULL) == JOURNAL_FILE && journal.length == limit.rlim_cur);
        WANT(journal_rotate(&journal, &engine, NULL, 0, false, NULL, NULL) == JOURNAL_FILE && !journal.is_broken);
    }
    WANT(setrlimit(RLIMIT_FSIZE, &before) == 0);
    keep(engine);
    /* no room for the next segment */
    limit.rlim_cur = 1;
    WANT(setrlimit(RLIMIT_FSIZE, &limit) == 0);
    WANT(journal_rotate(&journal, &engine, NULL, 0, false, NULL, NULL) == JOURNAL_FILE && journal.is_broken);
    WANT(setrlimit(RLIMIT_FSIZE, &before) == 0 && journal_keep(&journal, engine, NULL, NULL) == JOURNAL_FILE);
    stop(engine);
    WANT(start("full", NULL, &engine) == JOURNAL_DONE && journal.begun == JOURNAL_RECOVERED);
    WANT(journal_end(&journal, engine, NULL, NULL) == JOURNAL_DONE);
    stop(engine);
    WANT(strstr(got("full/000001.trace", &length), "dispatch 0 = Q4\nend ") != NULL);
}

/* An engine without a record, which is shut. */
static void is_shut(void)
{
    camr_engine *engine;
    size_t length;
    for (uint64_t number = 1; number < 4; number++) {
        WANT(start("shut", two, &engine) == JOURNAL_DONE && journal.number == number);
        WANT(journal_end(&journal, engine, NULL, NULL) == JOURNAL_DONE);
        stop(engine);
    }
    WANT(strcmp(got("shut/000001.trace", &length), "camr-trace 2\nend 0 0 0 0\n") == 0);
}

/* Each block is refused once: a start that is refused leaves nothing, not even the lock, and the next one succeeds. */
static void is_short_of_memory(void)
{
    static const char *const folders[] = {"cut", "shut"};
    camr_engine *engine;
    enum journal_result result;
    for (size_t which = 0; which < 2; which++) {
        long tries = 0;
        do {
            before_refusal = tries++;
            result = start(folders[which], NULL, &engine);
            WANT(result == JOURNAL_DONE || engine == NULL);
            WANT(result == JOURNAL_DONE || (result == JOURNAL_ENGINE && journal.refused == CAMR_OUT_OF_MEMORY) ||
                 (result == JOURNAL_FILE && journal.error == ENOMEM));
        } while (result != JOURNAL_DONE);
        before_refusal = -1;
        WANT(tries > 20 && journal.number == 1 + 3 * which);
        stop(engine);
    }
}

/* What a submission is, what was advised, a withdrawal and first words outlast a crash and the next segment. */
static void is_classed(void)
{
    static const char three[] = "version = 3\ncontrollers = 1\n" QUEUE "[[table]]\nlength = 2\nwords = [5]\n[[program]]\nname = \"p\"\nasm = \"\"\"\njeq r2, 0, on\n"
                                "mov64 r1, r2\ncall 2\non:\nmov64 r1, 2\ncall 15\nmov64 r1, 1\ncall 4\nmov64 r0, 0\nexit\n\"\"\"\n";
    camr_engine *engine;
    camr_run *run;
    uint32_t it;
    uint64_t r0;
    size_t length;
    bool ended;
    WANT(start("classed", three, &engine) == JOURNAL_DONE);
    WANT(camr_submit(engine, 0, 0, 1, 0x28, &it) == CAMR_DONE && camr_submit(engine, 0, 1, 1, 0x2a, &it) == CAMR_DONE);
    WANT(camr_dispatch(engine, 0, &it, &advice) == CAMR_DONE && it == 1 && advice == 0 && camr_withdraw(engine, 2) == CAMR_DONE);
    WANT(camr_complete(engine, 1, CAMR_CMD_TIMEOUT, 0, NULL, 0, &run) == CAMR_DONE);
    WANT(camr_drive(engine, run, &r0, &ended, &fate, &code) == CAMR_DONE && ended && fate == CAMR_REQUEUED && code == 0);
    camr_run_free(run);
    keep(engine);
    stop(engine);
    WANT(start("classed", NULL, &engine) == JOURNAL_DONE && journal.begun == JOURNAL_RECOVERED && camr_withdraw(engine, 2) == CAMR_UNKNOWN);
    WANT(journal_rotate(&journal, &engine, one, sizeof one - 1, false, NULL, NULL) == JOURNAL_DOES_NOT_FIT && !journal.is_broken);
    WANT(journal_rotate(&journal, &engine, NULL, 0, true, NULL, NULL) == JOURNAL_DONE && journal.number == 2);
    WANT(strstr(got("classed/000002.trace", &length), "\nword 0 0 5\nccb 1 0 0 0 1 40 2 waiting\n") != NULL);
    WANT(camr_dispatch(engine, 0, &it, &advice) == CAMR_DONE && it == 1 && advice == CAMR_ADVICE_START_UNIT);
    WANT(camr_complete(engine, 1, CAMR_REQ_CMP, 0, NULL, 0, &run) == CAMR_DONE && run == NULL);
    WANT(journal_end(&journal, engine, NULL, NULL) == JOURNAL_DONE);
    stop(engine);
}

int main(int count, char **words)
{
    WANT(count == 2 && chdir(words[1]) == 0 && signal(SIGXFSZ, SIG_IGN) != SIG_ERR);
    begins();
    lists();
    is_cut();
    is_faulty();
    has_runs();
    rotates();
    is_full();
    is_shut();
    is_short_of_memory();
    is_classed();
    return 0;
}
