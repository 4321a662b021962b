/*
 * One recovery by the C library: a CCB is submitted, starts and times out, and its queue's policy decides what becomes of it. The
 * trace goes to standard output. `recover.cpp` and `recover.py` do the same in C++ and in Python.
 *
 *     recover MANIFEST
 */
#define CAMR_ENGINE_HEAP
#include "camr_engine.h"

#include <stdio.h>

/* Ends the program on a result that this host does not expect. */
static void expect(camr_result result, const char *call)
{
    char text[128];
    size_t length = 0;
    if (result == CAMR_DONE) return;
    camr_result_text(result, text, sizeof text, &length);
    fprintf(stderr, "recover: %s: %.*s\n", call, (int)length, text);
    exit(1);
}

static camr_engine *open_engine(const char *path)
{
    static char manifest[1 << 20];
    char fault[256] = "";
    camr_engine *engine = NULL;
    FILE *file = fopen(path, "rb");
    if (file == NULL) {
        perror(path);
        exit(1);
    }
    size_t length = fread(manifest, 1, sizeof manifest, file);
    fclose(file);
    camr_result result = camr_open(manifest, length, &engine, fault, sizeof fault);
    if (result == CAMR_FAULTY) fprintf(stderr, "recover: %s: %s\n", path, fault);
    expect(result, "camr_open");
    return engine;
}

/* Takes the whole trace, which ends with the sums. */
static void print_trace(camr_engine *engine)
{
    char buffer[1024];
    size_t written;
    do {
        expect(camr_take(engine, buffer, sizeof buffer, &written), "camr_take");
        fwrite(buffer, 1, written, stdout);
    } while (written != 0);
    expect(camr_trace_end(engine, buffer, sizeof buffer, &written), "camr_trace_end");
    fwrite(buffer, 1, written, stdout);
}

int main(int count, char **words)
{
    uint32_t ccb, advice;
    camr_run *run = NULL;
    if (count != 2) {
        fprintf(stderr, "usage: recover MANIFEST\n");
        return 2;
    }
    camr_engine *engine = open_engine(words[1]);
    expect(camr_submit(engine, 0, 10, 3, 0, &ccb), "camr_submit");
    expect(camr_dispatch(engine, 0, &ccb, &advice), "camr_dispatch");
    /* here a transport gives the CCB to its device, which in this example does not answer in time */
    expect(camr_complete(engine, ccb, CAMR_CMD_TIMEOUT, 0, NULL, 0, &run), "camr_complete");
    if (run != NULL) {
        uint64_t r0;
        bool ended;
        uint32_t fate;
        uint8_t code;
        expect(camr_drive(engine, run, &r0, &ended, &fate, &code), "camr_drive");
        camr_run_free(run);
    }
    print_trace(engine);
    camr_close(engine);
    return fflush(stdout) == 0 ? 0 : 1;
}
