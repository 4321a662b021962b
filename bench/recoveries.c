/* How many failed completions a second are recovered by the calls of the C library, and how many I/Os succeed. One CCB on the first queue
 * fails 20,000 times, and the policy of programs/recovery.hex lets it wait again. On the second queue 300,000 I/Os are submitted, started
 * and completed without an error, while 32 are active. It prints lines as the benchmark does, and ends with 1 if a call is answered
 * otherwise. The manifest's path is its only word. */
#define CAMR_ENGINE_HEAP
#define _POSIX_C_SOURCE 199309L
#include "camr_engine.h"
#include <stdio.h>
#include <time.h>

enum { COMPLETIONS = 20000, IOS = 300000, ACTIVE = 32 };

static double seconds(void)
{
    struct timespec now;
    clock_gettime(CLOCK_MONOTONIC, &now);
    return (double)now.tv_sec + 1e-9 * (double)now.tv_nsec;
}

static bool recover(camr_engine *engine)
{
    uint32_t ccb, advice, fate;
    uint8_t code;
    camr_run *run;
    uint64_t r0;
    bool ended;
    if (camr_dispatch(engine, 0, &ccb, &advice) != CAMR_DONE) return false;
    if (camr_complete(engine, ccb, CAMR_BUSY, 0x08, NULL, 0, &run) != CAMR_DONE || run == NULL) return false;
    bool done = camr_drive(engine, run, &r0, &ended, &fate, &code) == CAMR_DONE && ended;
    camr_run_free(run);
    return done;
}

static bool start(camr_engine *engine, uint32_t *ccb)
{
    uint32_t advice;
    return camr_submit(engine, 1, 0, 1, 0, ccb) == CAMR_DONE && camr_dispatch(engine, 1, ccb, &advice) == CAMR_DONE;
}

static bool serve(camr_engine *engine)
{
    uint32_t active[ACTIVE];
    camr_run *run;
    for (int place = 0; place < ACTIVE; place++)
        if (!start(engine, &active[place])) return false;
    for (int count = 0; count < IOS; count++) {
        uint32_t *ccb = &active[count % ACTIVE];
        if (camr_complete(engine, *ccb, CAMR_REQ_CMP, 0, NULL, 0, &run) != CAMR_DONE || run != NULL) return false;
        if (!start(engine, ccb)) return false;
    }
    return true;
}

int main(int argc, char **argv)
{
    static char manifest[4096];
    FILE *file = argc == 2 ? fopen(argv[1], "rb") : NULL;
    if (file == NULL) return 1;
    size_t length = fread(manifest, 1, sizeof manifest, file);
    fclose(file);
    camr_engine *engine;
    uint32_t ccb;
    if (camr_open(manifest, length, &engine, NULL, 0) != CAMR_DONE) return 1;
    if (camr_submit(engine, 0, 0, UINT32_MAX, 0, &ccb) != CAMR_DONE) return 1;
    double begun = seconds();
    for (int count = 0; count < COMPLETIONS; count++)
        if (!recover(engine)) return 1;
    printf("recoveries-c %.0f a second\n", COMPLETIONS / (seconds() - begun));
    begun = seconds();
    if (!serve(engine)) return 1;
    printf("ios-c %.0f a second\n", IOS / (seconds() - begun));
    camr_close(engine);
    return 0;
}
