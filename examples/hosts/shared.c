/*
 * The calls that recover.py needs, as functions of a shared library: those of camr_engine.h are inline functions, which no other
 * language can call. The archive is position-independent, so that it is linked into the shared library:
 *
 *     cc -std=c11 -O2 -fPIC -shared -fvisibility=hidden $(pkg-config --cflags camr) shared.c $(pkg-config --libs camr) -o camr_host.so
 */
#define CAMR_ENGINE_HEAP
#include "camr_engine.h"

#define SHARED __attribute__((visibility("default")))

SHARED camr_result host_open(const char *manifest, size_t length, camr_engine **engine, char *fault, size_t fault_length)
{
    return camr_open(manifest, length, engine, fault, fault_length);
}

SHARED void host_close(camr_engine *engine) { camr_close(engine); }

SHARED camr_result host_submit(camr_engine *engine, uint32_t queue, uint32_t priority, uint32_t retries, uint32_t class_, uint32_t *ccb)
{
    return camr_submit(engine, queue, priority, retries, class_, ccb);
}

SHARED camr_result host_dispatch(camr_engine *engine, uint32_t queue, uint32_t *ccb, uint32_t *advice)
{
    return camr_dispatch(engine, queue, ccb, advice);
}

SHARED camr_result host_complete(camr_engine *engine, uint32_t ccb, uint8_t status, uint8_t scsi, const void *sense, size_t length,
                                 camr_run **run)
{
    return camr_complete(engine, ccb, status, scsi, sense, length, run);
}

SHARED camr_result host_drive(camr_engine *engine, camr_run *run, uint64_t *r0, bool *ended, uint32_t *fate, uint8_t *code)
{
    return camr_drive(engine, run, r0, ended, fate, code);
}

SHARED void host_run_free(camr_run *run) { camr_run_free(run); }

SHARED camr_result host_take(camr_engine *engine, char *buffer, size_t length, size_t *written)
{
    return camr_take(engine, buffer, length, written);
}

SHARED camr_result host_trace_end(camr_engine *engine, char *buffer, size_t length, size_t *written)
{
    return camr_trace_end(engine, buffer, length, written);
}

SHARED camr_result host_result_text(camr_result result, char *buffer, size_t length, size_t *written)
{
    return camr_result_text(result, buffer, length, written);
}
