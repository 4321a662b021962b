/*
 * How often each kind of failure was met, and what was done about them. A transport needs none of this: .ci/iscsi asks whether each fault
 * that it made has arrived.
 */
#ifndef MET_H
#define MET_H

#include <inttypes.h>
#include <stdint.h>
#include <stdio.h>

/* The failures that are told apart. A status of 0c with a SCSI status of 02 has sense data. */
static const struct {
    const char *name;
    uint8_t status, scsi;
    int32_t sense;                  /* key, code, qualifier; a negative one fits any */
} met_rows[] = {
    {"reset", 0x0c, 0x02, 0x62900},          {"mode-changed", 0x0c, 0x02, 0x62a01}, {"luns-changed", 0x0c, 0x02, 0x63f0e},
    {"preempted", 0x0c, 0x02, 0x62a03},      {"out-of-range", 0x0c, 0x02, 0x52100}, {"unknown-opcode", 0x0c, 0x02, 0x52000},
    {"invalid-field", 0x0c, 0x02, 0x52400},  {"no-such-lun", 0x0c, 0x02, 0x52500},  {"read-only", 0x0c, 0x02, 0x72700},
    {"not-ready", 0x0c, 0x02, 0x20401},      {"no-medium", 0x0c, 0x02, 0x23a00},    {"medium-error", 0x0c, 0x02, 0x31100},
    {"miscompare", 0x0c, 0x02, 0xe1d00},     {"recovered", 0x0c, 0x02, 0x11700},    {"aborted-command", 0x0c, 0x02, 0xb4b00},
    {"conflict", 0x0c, 0x18, -1},            {"busy", 0x0c, 0x08, -1},              {"task-set-full", 0x0c, 0x28, -1},
    {"aca-active", 0x0c, 0x30, -1},          {"task-aborted", 0x0c, 0x40, -1},      {"timed-out", 0x0b, 0, -1},
    {"reset-beside", 0x17, 0, -1},           {"link-lost", 0x0e, 0, -1},            {"another", 0, 0, -1},
};
enum { MET_ROWS = sizeof met_rows / sizeof *met_rows, MET_SENSE = 64 };

struct met {
    uint64_t rows[MET_ROWS];
    uint64_t descriptor, deferred, long_sense;
    uint64_t tests, loads, resets, links;
};

static inline void met_failure(struct met *met, uint8_t status, uint8_t scsi, const unsigned char *sense, size_t length)
{
    int32_t codes = -1;
    size_t row = 0;
    if (length >= 4 && (sense[0] & 0x7e) == 0x72) codes = (sense[1] & 0x0f) << 16 | sense[2] << 8 | sense[3];
    if (length >= 14 && (sense[0] & 0x7e) == 0x70) codes = (sense[2] & 0x0f) << 16 | sense[12] << 8 | sense[13];
    if (length != 0 && (sense[0] & 0x7e) == 0x72) met->descriptor++;
    if (length != 0 && (sense[0] & 0x7d) == 0x71) met->deferred++;
    if (length > MET_SENSE) met->long_sense++;
    while (row + 1 < MET_ROWS && (met_rows[row].status != status || met_rows[row].scsi != scsi ||
                                  (met_rows[row].sense >= 0 && met_rows[row].sense != codes)))
        row++;
    met->rows[row]++;
}

static inline void met_print(const struct met *met)
{
    for (size_t row = 0; row < MET_ROWS; row++) printf("met %s %" PRIu64 "\n", met_rows[row].name, met->rows[row]);
    printf("met descriptor-sense %" PRIu64 "\nmet deferred-error %" PRIu64 "\nmet long-sense %" PRIu64 "\n", met->descriptor, met->deferred,
           met->long_sense);
    printf("did tests %" PRIu64 "\ndid loads %" PRIu64 "\ndid resets %" PRIu64 "\ndid links %" PRIu64 "\n", met->tests, met->loads, met->resets,
           met->links);
}

#endif
