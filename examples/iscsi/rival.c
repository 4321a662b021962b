/*
 * A second initiator beside the transport, which does to a disk what another host may do.
 *
 *     rival PORTAL TARGET LUN mode          selects the mode pages that there are: the others find their parameters changed
 *     rival PORTAL TARGET LUN reserve MS    reserves the disk, releases it after so many milliseconds
 *     rival PORTAL TARGET LUN persist MS    takes a persistent reservation for writing, and clears all registrations after that
 *     rival PORTAL TARGET LUN eject         ejects the medium
 *     rival PORTAL TARGET LUN reset         resets the LUN
 *
 * Status 0: it was done. 1: it was not.
 */
#define _POSIX_C_SOURCE 200809L
#include <iscsi/iscsi.h>
#include <iscsi/scsi-lowlevel.h>
#include <stdbool.h>
#include <stdio.h>
#include <stdlib.h>
#include <string.h>
#include <time.h>

static struct iscsi_context *link;
static int lun;

static void sleep_for(long milliseconds)
{
    struct timespec time = {milliseconds / 1000, milliseconds % 1000 * 1000000};
    nanosleep(&time, NULL);
}

/* Whether a command went well. One that finds a unit attention is sent again, three times at most. */
static bool sent(unsigned char *cdb, int size, enum scsi_xfer_dir direction, unsigned char *bytes, int length)
{
    struct iscsi_data data = {(size_t)length, bytes};
    for (int tries = 0; tries < 4; tries++) {
        struct scsi_task *task = scsi_create_task(size, cdb, direction, length);
        if (task == NULL || iscsi_scsi_command_sync(link, lun, task, direction == SCSI_XFER_WRITE ? &data : NULL) == NULL) return false;
        int status = task->status, key = (int)task->sense.key;
        if (status == SCSI_STATUS_GOOD && direction == SCSI_XFER_READ)
            memcpy(bytes, task->datain.data, (size_t)(task->datain.size < length ? task->datain.size : length));
        scsi_free_scsi_task(task);
        if (status == SCSI_STATUS_GOOD) return true;
        if (status != SCSI_STATUS_CHECK_CONDITION || key != SCSI_SENSE_UNIT_ATTENTION) return false;
    }
    return false;
}

/* The caching page, as MODE SENSE gives it, is selected with its write cache switched over, and then as it was. */
static bool mode(void)
{
    unsigned char sense[6] = {0x1a, 0x08, 0x08, 0, 24, 0}, page[24] = {0}, select[6] = {0x15, 0x10, 0, 0, 24, 0};
    if (!sent(sense, 6, SCSI_XFER_READ, page, sizeof page)) return false;
    page[0] = page[2] = 0;
    page[4] &= 0x3f;
    page[6] ^= 0x04;
    if (!sent(select, 6, SCSI_XFER_WRITE, page, sizeof page)) return false;
    page[6] ^= 0x04;
    return sent(select, 6, SCSI_XFER_WRITE, page, sizeof page);
}

static bool reserve(long milliseconds)
{
    unsigned char take[6] = {0x16}, give[6] = {0x17};
    if (!sent(take, 6, SCSI_XFER_NONE, NULL, 0)) return false;
    sleep_for(milliseconds);
    return sent(give, 6, SCSI_XFER_NONE, NULL, 0);
}

static bool persist(long milliseconds)
{
    unsigned char by_registering[10] = {0x5f, 6, 0, 0, 0, 0, 0, 0, 24}, by_reserving[10] = {0x5f, 1, 1, 0, 0, 0, 0, 0, 24};
    unsigned char by_clearing[10] = {0x5f, 3, 0, 0, 0, 0, 0, 0, 24}, keys[24] = {0};
    keys[15] = 0x77;
    if (!sent(by_registering, 10, SCSI_XFER_WRITE, keys, sizeof keys)) return false;
    keys[15] = 0;
    keys[7] = 0x77;
    if (!sent(by_reserving, 10, SCSI_XFER_WRITE, keys, sizeof keys)) return false;
    sleep_for(milliseconds);
    return sent(by_clearing, 10, SCSI_XFER_WRITE, keys, sizeof keys);
}

int main(int count, char **words)
{
    unsigned char eject[6] = {0x1b, 0, 0, 0, 0x02, 0};
    bool is_done = false;
    if (count < 5) {
        fprintf(stderr, "usage: rival PORTAL TARGET LUN mode | reserve MS | persist MS | eject | reset\n");
        return 2;
    }
    const char *what = words[4];
    long milliseconds = count > 5 ? strtol(words[5], NULL, 10) : 0;
    lun = (int)strtol(words[3], NULL, 10);
    link = iscsi_create_context("iqn.2026-11.test:rival");
    if (link == NULL) return 1;
    iscsi_set_targetname(link, words[2]);
    iscsi_set_session_type(link, ISCSI_SESSION_NORMAL);
    iscsi_set_timeout(link, 4);
    iscsi_set_noautoreconnect(link, 1);
    if (iscsi_connect_sync(link, words[1]) == 0 && iscsi_login_sync(link) == 0) {
        if (strcmp(what, "mode") == 0) is_done = mode();
        if (strcmp(what, "reserve") == 0) is_done = reserve(milliseconds);
        if (strcmp(what, "persist") == 0) is_done = persist(milliseconds);
        if (strcmp(what, "eject") == 0) is_done = sent(eject, 6, SCSI_XFER_NONE, NULL, 0);
        if (strcmp(what, "reset") == 0) is_done = iscsi_task_mgmt_lun_reset_sync(link, (uint32_t)lun) == 0;
        iscsi_logout_sync(link);
    }
    if (!is_done) fprintf(stderr, "rival: %s on LUN %d: %s\n", what, lun, iscsi_get_error(link));
    iscsi_destroy_context(link);
    return is_done ? 0 : 1;
}
