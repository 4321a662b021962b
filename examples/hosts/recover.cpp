// One recovery by the C library in C++: a CCB is submitted, starts and times out, and its queue's policy decides what becomes of it.
// The trace goes to standard output. The handles of the library are owned by smart pointers, and its results become exceptions.
//
//     recover MANIFEST
#define CAMR_ENGINE_HEAP
#include "camr_engine.h"

#include <fstream>
#include <iostream>
#include <iterator>
#include <memory>
#include <stdexcept>
#include <string>

namespace {

struct Close {
    void operator()(camr_engine *engine) const { camr_close(engine); }
};
struct Free {
    void operator()(camr_run *run) const { camr_run_free(run); }
};
using Engine = std::unique_ptr<camr_engine, Close>;
using Run = std::unique_ptr<camr_run, Free>;

// Throws for a result other than CAMR_DONE.
void expect(camr_result result, const std::string &call)
{
    char text[128];
    size_t length = 0;
    if (result == CAMR_DONE) return;
    camr_result_text(result, text, sizeof text, &length);
    throw std::runtime_error(call + ": " + std::string(text, length));
}

Engine open(const std::string &path)
{
    std::ifstream file(path, std::ios::binary);
    if (!file) throw std::runtime_error(path + " cannot be read");
    const std::string manifest((std::istreambuf_iterator<char>(file)), std::istreambuf_iterator<char>());
    char fault[256] = "";
    camr_engine *engine = nullptr;
    const camr_result result = camr_open(manifest.data(), manifest.size(), &engine, fault, sizeof fault);
    if (result == CAMR_FAULTY) throw std::runtime_error(path + ": " + fault);
    expect(result, "camr_open");
    return Engine(engine);
}

// Reports that a CCB failed. The run of its policy belongs to the caller, and has to go before the engine.
Run complete(const Engine &engine, uint32_t ccb, uint8_t status)
{
    camr_run *run = nullptr;
    expect(camr_complete(engine.get(), ccb, status, 0, nullptr, 0, &run), "camr_complete");
    return Run(run);
}

void recover(const Engine &engine)
{
    uint32_t ccb = 0, advice = 0;
    expect(camr_submit(engine.get(), 0, 10, 3, 0, &ccb), "camr_submit");
    expect(camr_dispatch(engine.get(), 0, &ccb, &advice), "camr_dispatch");
    // here a transport gives the CCB to its device, which in this example does not answer in time
    const Run run = complete(engine, ccb, CAMR_CMD_TIMEOUT);
    if (run) {
        uint64_t r0 = 0;
        bool ended = false;
        uint32_t fate = CAMR_KEPT;
        uint8_t code = 0;
        expect(camr_drive(engine.get(), run.get(), &r0, &ended, &fate, &code), "camr_drive");
    }
}

// The whole trace, which ends with the sums.
std::string take_trace(const Engine &engine)
{
    std::string trace;
    char buffer[1024];
    size_t written = 0;
    do {
        expect(camr_take(engine.get(), buffer, sizeof buffer, &written), "camr_take");
        trace.append(buffer, written);
    } while (written != 0);
    expect(camr_trace_end(engine.get(), buffer, sizeof buffer, &written), "camr_trace_end");
    return trace.append(buffer, written);
}

} // namespace

int main(int count, char **words)
{
    if (count != 2) {
        std::cerr << "usage: recover MANIFEST\n";
        return 2;
    }
    try {
        const Engine engine = open(words[1]);
        recover(engine);
        std::cout << take_trace(engine) << std::flush;
        return std::cout ? 0 : 1;
    } catch (const std::exception &fault) {
        std::cerr << "recover: " << fault.what() << '\n';
        return 1;
    }
}
