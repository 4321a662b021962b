/*
 * journal.h: a journal for a host in C or C++, over camr_engine.h. Copy it into a host as it is.
 *
 * A journal is a folder that keeps the trace of an engine, so that the engine stands where it stood after the process was killed, or the
 * machine stopped. camr-journal(5) describes the files. `camr audit FOLDER` accepts what this header writes, and `camr live --journal
 * FOLDER` goes on with it; either of the two locks the other out.
 *
 *     struct journal journal;
 *     camr_engine *engine;
 *     if (journal_start(&journal, "folder", manifest, length, true, &engine) != JOURNAL_DONE) ...journal_text says why
 *     ...after a crash or a shutdown: the runs, freezes and CCBs that were found
 *     ...calls of the engine, and journal_keep before anything of them gets out
 *     journal_end(&journal, engine, NULL, NULL);
 *     journal_close(&journal);
 *     camr_close(engine);
 *
 * WHAT THE HOST PROMISES. The host calls neither camr_take nor camr_succeed by itself. It calls the functions that are given an engine
 * under the lock under which it calls the engine. The text of `folder` stays where it is until journal_close. After a fork both processes
 * have the lock, until both have closed it or have executed another program.
 *
 * FAULTS. Each function returns what it came to, and journal_text makes a line of that. No function prints, ends the process, or waits
 * for another one. A file that cannot be read or written is JOURNAL_FILE: journal->name is its name within the folder, which is empty for
 * the folder itself, and journal->error is the errno.
 *
 * LIMITS. camr_recover is given the newest segment as a whole, with a record of 40 bytes for each line: so a start takes, for a moment,
 * some four times the bytes of that segment. A host that begins a new segment now and then (journal_rotate) keeps that small.
 *
 * With -std=c11 the host defines _POSIX_C_SOURCE as 200809L before its first header.
 */
#ifndef CAMR_JOURNAL_H
#define CAMR_JOURNAL_H

#include "camr_engine.h"

#include <dirent.h>
#include <errno.h>
#include <fcntl.h>
#include <inttypes.h>
#include <stdio.h>
#include <stdlib.h>
#include <string.h>
#include <sys/file.h>
#include <sys/stat.h>
#include <unistd.h>

/* What a function came to. */
enum journal_result {
    JOURNAL_DONE,
    JOURNAL_FOREIGN,              /* J1: the folder is no journal, or there is none yet and no manifest is given */
    JOURNAL_OTHER_MANIFEST,       /* J2: the manifest is not the one in force in the newest segment, which goes on */
    JOURNAL_IN_USE,               /* J3: another engine has the journal */
    JOURNAL_RUN_LIVE,             /* N3: a run is live, so no engine can follow */
    JOURNAL_DOES_NOT_FIT,         /* N4: the manifest lacks a queue or a controller of what is left, or a CCB that is left has a class or an advice
                                     and the manifest is of version 1 or 2 */
    JOURNAL_FAULTY,               /* the manifest, or a file of the journal, has a fault: journal->fault says which */
    JOURNAL_FILE,                 /* a file cannot be read or written: journal->name says which, and journal->error why */
    JOURNAL_ENGINE                /* the engine refused a call: journal->refused is its result, as CAMR_OUT_OF_MEMORY */
};

/* What a start found. */
enum journal_begun {
    JOURNAL_NEW,                  /* nothing: the journal was begun */
    JOURNAL_RECOVERED,            /* an engine that was killed: its segment goes on */
    JOURNAL_FOLLOWED              /* an engine that was shut: another one follows it, in the next segment */
};

enum { JOURNAL_FREEZES = 1024, JOURNAL_ROOM = 65536, JOURNAL_NAME = 48, JOURNAL_FAULT = 256 };

/* A freeze that a guest holds. */
struct journal_freeze {
    uint32_t freeze, guest;
    uint32_t place;               /* the number of the queue, or of the controller */
    bool is_controller;
};

/* A journal. A host reads its fields, and changes none. */
struct journal {
    const char *folder;
    enum journal_begun begun;
    uint64_t number;              /* of the newest segment */
    uint64_t length;              /* its bytes */

    /* What the last start or journal_rotate found: the clock's last reading, in milliseconds, and the freezes that guests hold, by rising
       number. An engine holds no more freezes than there is room for. */
    uint64_t clock;
    struct journal_freeze freezes[JOURNAL_FREEZES];
    size_t freeze_count;

    /* What the last function that failed came to. */
    enum journal_result result;
    camr_result refused;
    int error;
    char name[JOURNAL_NAME];
    char fault[JOURNAL_NAME + JOURNAL_FAULT];

    /* The folder, the file of its lock and the newest segment are open; -1 if they are not. */
    int folder_file, lock_file, segment_file;
    bool is_synced;
    bool is_broken;               /* nothing can be kept any more */
    /* Lines that were taken from the engine. Those before `from` are in the segment. */
    char lines[JOURNAL_ROOM + 1];
    size_t begin, from, to;
};

/* What a host does with lines that are in the journal. They are whole, each with its line feed, and a 0 ends the last one. */
typedef void journal_reader(void *argument, const char *lines);

/* ---- faults, and files ------------------------------------------------------------------------------------------------------ */

static inline enum journal_result journal_fails_(struct journal *journal, enum journal_result result)
{
    journal->result = result;
    return result;
}

/* A file failed, as errno says. */
static inline enum journal_result journal_lost_(struct journal *journal, const char *name)
{
    journal->error = errno;
    snprintf(journal->name, sizeof journal->name, "%s", name);
    return journal_fails_(journal, JOURNAL_FILE);
}

/* The engine refused a call. `name` is the file that was to be read then, or NULL for the manifest that the host gave. */
static inline enum journal_result journal_refused_(struct journal *journal, camr_result refused, const char *name, const char *fault)
{
    journal->refused = refused;
    if (refused == CAMR_RUNS_LIVE) return journal_fails_(journal, JOURNAL_RUN_LIVE);
    if (refused == CAMR_DOES_NOT_FIT) return journal_fails_(journal, JOURNAL_DOES_NOT_FIT);
    if (refused == CAMR_NOT_UTF8) fault = "not UTF-8";
    else if (refused != CAMR_FAULTY) return journal_fails_(journal, JOURNAL_ENGINE);
    snprintf(journal->fault, sizeof journal->fault, "%s%s%s", name != NULL ? name : "", name != NULL ? " " : "", fault);
    return journal_fails_(journal, JOURNAL_FAULTY);
}

/* Puts a line that says what the last function that failed came to into a buffer, with a 0 at its end, as much as finds room. */
static inline void journal_text(const struct journal *journal, char *buffer, size_t length)
{
    char text[128];
    size_t written = 0;
    switch (journal->result) {
    case JOURNAL_DONE: snprintf(buffer, length, "no fault"); return;
    case JOURNAL_FOREIGN: snprintf(buffer, length, "%s: J1", journal->folder); return;
    case JOURNAL_OTHER_MANIFEST: snprintf(buffer, length, "%s: J2", journal->folder); return;
    case JOURNAL_IN_USE: snprintf(buffer, length, "%s: J3", journal->folder); return;
    case JOURNAL_RUN_LIVE: snprintf(buffer, length, "%s: N3", journal->folder); return;
    case JOURNAL_DOES_NOT_FIT: snprintf(buffer, length, "%s: N4", journal->folder); return;
    case JOURNAL_FAULTY: snprintf(buffer, length, "%s: %s", journal->folder, journal->fault); return;
    case JOURNAL_FILE:
        snprintf(buffer, length, "file %s%s%s: %s", journal->folder, journal->name[0] != '\0' ? "/" : "", journal->name, strerror(journal->error));
        return;
    case JOURNAL_ENGINE:
        camr_result_text(journal->refused, text, sizeof text, &written);
        snprintf(buffer, length, "%s: %.*s", journal->folder, (int)written, text);
        return;
    }
}

static inline void journal_close_file_(int *file)
{
    if (*file >= 0) close(*file);
    *file = -1;
}

static inline void journal_close_files_(struct journal *journal)
{
    journal_close_file_(&journal->segment_file);
    journal_close_file_(&journal->lock_file);
    journal_close_file_(&journal->folder_file);
}

/* Nothing more is kept: a call that is to do so returns JOURNAL_FILE with EBADF. */
static inline void journal_ends_(struct journal *journal)
{
    errno = EBADF;
    journal_lost_(journal, "");
    journal->is_broken = true;
}

/* Closes the journal, and gives its lock back. A journal whose start failed is closed already. The engine is not closed. */
static inline void journal_close(struct journal *journal)
{
    journal_close_files_(journal);
    journal_ends_(journal);
}

/* Reads a whole file, to which a folder's file or AT_FDCWD and a path lead. A 0 stands after its bytes, which are freed by free. Without
   success *bytes is NULL, and errno says why. */
static inline bool journal_read(int folder, const char *path, char **bytes, size_t *length)
{
    struct stat status;
    int file = openat(folder, path, O_RDONLY | O_CLOEXEC), error;
    size_t room = 0;
    char *place = NULL;
    *bytes = NULL;
    *length = 0;
    if (file < 0) return false;
    if (fstat(file, &status) == 0 && S_ISREG(status.st_mode)) room = (size_t)status.st_size;
    for (;;) {
        /* one byte more than the file has shows its end */
        if (place == NULL || *length == room) {
            room = place == NULL ? room + 1 : room * 2;
            char *larger = (char *)realloc(place, room + 1);
            if (larger == NULL) {
                /* C leaves it open whether this is set */
                errno = ENOMEM;
                break;
            }
            place = larger;
        }
        ssize_t count = read(file, place + *length, room - *length);
        if (count < 0 && errno == EINTR) continue;
        if (count < 0) break;
        *length += (size_t)count;
        if (count != 0) continue;
        place[*length] = '\0';
        *bytes = place;
        close(file);
        return true;
    }
    error = errno;
    free(place);
    close(file);
    *length = 0;
    errno = error;
    return false;
}

/* Writes bytes to a file, and counts those that are written in *done. */
static inline bool journal_write_(int file, const char *bytes, size_t length, size_t *done)
{
    while (*done < length) {
        ssize_t count = write(file, bytes + *done, length - *done);
        if (count < 0 && errno == EINTR) continue;
        if (count == 0) errno = EIO;
        if (count <= 0) return false;
        *done += (size_t)count;
    }
    return true;
}

/* Opens a file that is to be written whole, under another name. */
static inline int journal_open_new_(struct journal *journal, const char *name)
{
    char other[JOURNAL_NAME + 4];
    snprintf(other, sizeof other, "%s.new", name);
    return openat(journal->folder_file, other, O_WRONLY | O_CREAT | O_TRUNC | O_CLOEXEC, 0666);
}

/* Gives a file that was written whole its name. The file, and its name, would outlast a stop of the machine from then on. */
static inline bool journal_name_new_(struct journal *journal, int file, const char *name)
{
    char other[JOURNAL_NAME + 4];
    snprintf(other, sizeof other, "%s.new", name);
    return fsync(file) == 0 && renameat(journal->folder_file, other, journal->folder_file, name) == 0 && fsync(journal->folder_file) == 0;
}

static inline void journal_segment_name_(char name[JOURNAL_NAME], uint64_t number)
{
    snprintf(name, JOURNAL_NAME, "%06" PRIu64 ".trace", number);
}

static inline void journal_manifest_name_(char name[JOURNAL_NAME], uint64_t number)
{
    snprintf(name, JOURNAL_NAME, "%06" PRIu64 ".toml", number);
}

/* ---- what lines say of the clock and of guests --------------------------------------------------------------------------------- */

static inline void journal_learn_freeze_(struct journal *journal, uint32_t freeze, uint32_t guest, uint32_t place, bool is_controller)
{
    if (journal->freeze_count == JOURNAL_FREEZES) return;
    struct journal_freeze *its = &journal->freezes[journal->freeze_count++];
    its->freeze = freeze;
    its->guest = guest;
    its->place = place;
    its->is_controller = is_controller;
}

static inline void journal_forget_freeze_(struct journal *journal, uint32_t freeze)
{
    size_t at = 0;
    while (at < journal->freeze_count && journal->freezes[at].freeze != freeze) at++;
    if (at == journal->freeze_count) return;
    memmove(&journal->freezes[at], &journal->freezes[at + 1], (--journal->freeze_count - at) * sizeof journal->freezes[0]);
}

static inline void journal_learn_line_(struct journal *journal, const char *line)
{
    uint64_t reading = 0;
    uint32_t one = 0, other = 0, freeze = 0;
    char refusal[2];
    if (sscanf(line, "clock %" SCNu64 " = %1[C]", &reading, refusal) == 1) journal->clock = reading;
    if (sscanf(line, "gfreeze %" SCNu32 " %" SCNu32 " = freeze %" SCNu32, &one, &other, &freeze) == 3)
        journal_learn_freeze_(journal, freeze, other, one, false);
    if (sscanf(line, "cfreeze %" SCNu32 " %" SCNu32 " = freeze %" SCNu32, &one, &other, &freeze) == 3)
        journal_learn_freeze_(journal, freeze, other, one, true);
    if (sscanf(line, "freeze %" SCNu32 " queue %" SCNu32 " guest %" SCNu32, &freeze, &one, &other) == 3)
        journal_learn_freeze_(journal, freeze, other, one, false);
    if (sscanf(line, "freeze %" SCNu32 " controller %" SCNu32 " guest %" SCNu32, &freeze, &one, &other) == 3)
        journal_learn_freeze_(journal, freeze, other, one, true);
    if (sscanf(line, "grelease %" SCNu32 " = ", &freeze) == 1) journal_forget_freeze_(journal, freeze);
}

/* Goes over whole lines of a segment. */
static inline void journal_learn_(struct journal *journal, const char *lines, size_t length)
{
    const char *stop = lines + length, *end;
    char line[512];
    for (; lines < stop; lines = end + 1) {
        end = (const char *)memchr(lines, '\n', (size_t)(stop - lines));
        if (end == NULL) return;
        bool is_told = *lines == 'g' || *lines == 'f' || (end > lines && *lines == 'c' && (lines[1] == 'l' || lines[1] == 'f'));
        if (!is_told || (size_t)(end - lines) >= sizeof line) continue;
        memcpy(line, lines, (size_t)(end - lines));
        line[end - lines] = '\0';
        journal_learn_line_(journal, line);
    }
}

static inline void journal_learn_anew_(struct journal *journal)
{
    journal->clock = 0;
    journal->freeze_count = 0;
}

/* ---- which segments there are ----------------------------------------------------------------------------------------------------- */

struct journal_listing_ {
    bool is_foreign;
    uint64_t first, last, count;  /* of the segments */
    uint64_t own, above;          /* how many manifests stand beside segments, and after the last one */
};

/* The number in a name that has this end: six digits, or as many as it needs, up to 18. 0 if it is no such name. */
static inline uint64_t journal_number_(const char *name, const char *end)
{
    size_t length = strspn(name, "0123456789");
    if (strcmp(name + length, end) != 0 || length < 6 || length > 18 || (length > 6 && name[0] == '0')) return 0;
    return strtoull(name, NULL, 10);
}

static inline bool journal_is_passed_over_(const char *name)
{
    size_t length = strlen(name);
    return strcmp(name, ".") == 0 || strcmp(name, "..") == 0 || strcmp(name, "lock") == 0 || (length >= 4 && strcmp(name + length - 4, ".new") == 0);
}

/* Goes over the names: first those of the segments, and then, since these say where a manifest belongs, those of the manifests. */
static inline bool journal_list_names_(DIR *names, struct journal_listing_ *listing, bool are_manifests)
{
    struct dirent *entry;
    while ((void)(errno = 0), (entry = readdir(names)) != NULL) {
        uint64_t segment = journal_number_(entry->d_name, ".trace"), manifest = journal_number_(entry->d_name, ".toml");
        if (journal_is_passed_over_(entry->d_name)) continue;
        if (!are_manifests) {
            listing->is_foreign = listing->is_foreign || (segment == 0 && manifest == 0);
            if (segment == 0) continue;
            if (listing->count == 0 || segment < listing->first) listing->first = segment;
            if (listing->count == 0 || segment > listing->last) listing->last = segment;
            listing->count++;
        } else if (manifest != 0) {
            listing->is_foreign = listing->is_foreign || (listing->count != 0 && manifest < listing->first);
            if (listing->count != 0 && manifest <= listing->last) listing->own++;
            else listing->above++;
        }
    }
    return errno == 0;
}

/* Says which segments there are: none, or those from a first to a last one. */
static inline enum journal_result journal_list_(struct journal *journal, struct journal_listing_ *listing)
{
    memset(listing, 0, sizeof *listing);
    int file = openat(journal->folder_file, ".", O_RDONLY | O_DIRECTORY | O_CLOEXEC);
    DIR *names = file >= 0 ? fdopendir(file) : NULL;
    if (names == NULL) {
        enum journal_result result = journal_lost_(journal, "");
        journal_close_file_(&file);
        return result;
    }
    bool is_read = journal_list_names_(names, listing, false);
    rewinddir(names);
    is_read = is_read && journal_list_names_(names, listing, true);
    enum journal_result result = is_read ? JOURNAL_DONE : journal_lost_(journal, "");
    closedir(names);
    if (result != JOURNAL_DONE) return result;
    bool is_whole = listing->count == 0 || listing->last - listing->first + 1 == listing->count;
    if (listing->is_foreign || !is_whole || listing->own != listing->count || listing->above > 1) return journal_fails_(journal, JOURNAL_FOREIGN);
    return JOURNAL_DONE;
}

/* ---- making a segment ------------------------------------------------------------------------------------------------------------- */

/* Writes the lines with which the segment of an engine that has no record begins, and learns what they say. */
static inline enum journal_result journal_write_front_(struct journal *journal, camr_engine *engine, int file, const char *name)
{
    uint64_t next = 0;
    size_t written, done;
    journal->length = 0;
    for (;;) {
        bool is_continued = true;
        camr_result refused = camr_carried(engine, next, journal->lines, JOURNAL_ROOM, &written, &next);
        if (refused == CAMR_TAKEN && journal->length == 0) { /* it follows none, and has the first line alone */
            is_continued = false;
            refused = camr_trace(engine, 0, journal->lines, JOURNAL_ROOM, &written, &next);
        }
        if (refused != CAMR_DONE) return journal_refused_(journal, refused, name, "");
        done = 0;
        if (!journal_write_(file, journal->lines, written, &done)) return journal_lost_(journal, name);
        journal_learn_(journal, journal->lines, written);
        journal->length += written;
        if (!is_continued || written == 0) return JOURNAL_DONE;
    }
}

static inline enum journal_result journal_make_manifest_(struct journal *journal, const char *manifest, size_t length)
{
    char name[JOURNAL_NAME];
    size_t done = 0;
    journal_manifest_name_(name, journal->number);
    int file = journal_open_new_(journal, name);
    bool is_made = file >= 0 && journal_write_(file, manifest, length, &done) && journal_name_new_(journal, file, name);
    enum journal_result result = is_made ? JOURNAL_DONE : journal_lost_(journal, name);
    journal_close_file_(&file);
    return result;
}

/* Makes the next segment for an engine that has no record, its manifest first. */
static inline enum journal_result journal_make_(struct journal *journal, camr_engine *engine, const char *manifest, size_t length)
{
    char name[JOURNAL_NAME];
    journal_close_file_(&journal->segment_file);
    journal_learn_anew_(journal);
    journal->number++;
    enum journal_result result = journal_make_manifest_(journal, manifest, length);
    if (result != JOURNAL_DONE) return result;
    journal_segment_name_(name, journal->number);
    journal->segment_file = journal_open_new_(journal, name);
    if (journal->segment_file < 0) return journal_lost_(journal, name);
    result = journal_write_front_(journal, engine, journal->segment_file, name);
    if (result != JOURNAL_DONE) return result;
    return journal_name_new_(journal, journal->segment_file, name) ? JOURNAL_DONE : journal_lost_(journal, name);
}

/* ---- a start ------------------------------------------------------------------------------------------------------------------------ */

static inline enum journal_result journal_open_engine_(struct journal *journal, const char *manifest, size_t length, camr_engine **engine)
{
    char fault[JOURNAL_FAULT] = "";
    if (manifest == NULL) return journal_fails_(journal, JOURNAL_FOREIGN);
    camr_result refused = camr_open(manifest, length, engine, fault, sizeof fault);
    return refused == CAMR_DONE ? JOURNAL_DONE : journal_refused_(journal, refused, NULL, fault);
}

/* Makes the folder. Its name, too, would outlast a stop of the machine from then on. */
static inline enum journal_result journal_make_folder_(struct journal *journal)
{
    if (mkdir(journal->folder, 0777) != 0 && errno != EEXIST) return journal_lost_(journal, "");
    journal->folder_file = open(journal->folder, O_RDONLY | O_DIRECTORY | O_CLOEXEC);
    int above = journal->folder_file >= 0 ? openat(journal->folder_file, "..", O_RDONLY | O_DIRECTORY | O_CLOEXEC) : -1;
    if (above >= 0) fsync(above);
    journal_close_file_(&above);
    return journal->folder_file >= 0 ? JOURNAL_DONE : journal_lost_(journal, "");
}

/* Takes the lock, and makes the folder before that if it is missing and the manifest is accepted. */
static inline enum journal_result journal_lock_(struct journal *journal, const char *manifest, size_t length, camr_engine **engine)
{
    enum journal_result result;
    journal->folder_file = open(journal->folder, O_RDONLY | O_DIRECTORY | O_CLOEXEC);
    if (journal->folder_file < 0) {
        if (errno != ENOENT) return journal_lost_(journal, "");
        result = journal_open_engine_(journal, manifest, length, engine);
        if (result == JOURNAL_DONE) result = journal_make_folder_(journal);
        if (result != JOURNAL_DONE) return result;
    }
    journal->lock_file = openat(journal->folder_file, "lock", O_WRONLY | O_CREAT | O_CLOEXEC, 0666);
    if (journal->lock_file < 0) return journal_lost_(journal, "lock");
    while (flock(journal->lock_file, LOCK_EX | LOCK_NB) != 0) {
        if (errno == EWOULDBLOCK) return journal_fails_(journal, JOURNAL_IN_USE);
        if (errno != EINTR) return journal_lost_(journal, "lock");
    }
    return JOURNAL_DONE;
}

/* What was read of the newest segment, and of its manifest. */
struct journal_newest_ {
    char *own, *text;
    size_t own_length, text_length;
    size_t whole;                 /* how many bytes its whole lines have */
    bool is_ended;                /* whether its last line is there: its engine was shut */
};

/* Whether a text ends with the last line of a trace. */
static inline bool journal_is_ended_(const struct journal_newest_ *newest)
{
    uint64_t sums[4];
    char line[128];
    int length = 0;
    size_t from = newest->whole != 0 ? newest->whole - 1 : 0;
    if (newest->whole != newest->text_length || newest->whole == 0) return false;
    while (from > 0 && newest->text[from - 1] != '\n') from--;
    if (newest->whole - from >= sizeof line) return false;
    memcpy(line, newest->text + from, newest->whole - from);
    line[newest->whole - from] = '\0';
    return sscanf(line, "end %" SCNu64 " %" SCNu64 " %" SCNu64 " %" SCNu64 "%n", &sums[0], &sums[1], &sums[2], &sums[3], &length) == 4 &&
           (size_t)length + 1 == newest->whole - from;
}

static inline enum journal_result journal_read_newest_(struct journal *journal, struct journal_newest_ *newest)
{
    char name[JOURNAL_NAME];
    journal_manifest_name_(name, journal->number);
    if (!journal_read(journal->folder_file, name, &newest->own, &newest->own_length)) return journal_lost_(journal, name);
    journal_segment_name_(name, journal->number);
    if (!journal_read(journal->folder_file, name, &newest->text, &newest->text_length)) return journal_lost_(journal, name);
    newest->whole = newest->text_length;
    while (newest->whole > 0 && newest->text[newest->whole - 1] != '\n') newest->whole--;
    newest->is_ended = journal_is_ended_(newest);
    return JOURNAL_DONE;
}

/* Recovers the engine of the newest segment. */
static inline enum journal_result journal_recover_(struct journal *journal, const struct journal_newest_ *newest, camr_engine **engine)
{
    char fault[JOURNAL_FAULT] = "", name[JOURNAL_NAME];
    camr_engine *opened = NULL;
    camr_result refused = camr_recover(newest->own, newest->own_length, newest->text, newest->text_length, engine, fault, sizeof fault);
    if (refused == CAMR_DONE) {
        journal_learn_anew_(journal);
        journal_learn_(journal, newest->text, newest->whole);
        return JOURNAL_DONE;
    }
    /* whichever of the two texts it is */
    bool is_manifest = camr_open(newest->own, newest->own_length, &opened, NULL, 0) != CAMR_DONE;
    camr_close(opened);
    if (is_manifest) journal_manifest_name_(name, journal->number);
    else journal_segment_name_(name, journal->number);
    return journal_refused_(journal, refused, name, fault);
}

/* Opens the newest segment to be appended to. What is not whole of it is cut off. */
static inline enum journal_result journal_append_(struct journal *journal, const struct journal_newest_ *newest)
{
    char name[JOURNAL_NAME];
    journal_segment_name_(name, journal->number);
    journal->segment_file = openat(journal->folder_file, name, O_WRONLY | O_APPEND | O_CLOEXEC);
    if (journal->segment_file < 0) return journal_lost_(journal, name);
    journal->length = newest->whole;
    if (newest->whole == newest->text_length) return JOURNAL_DONE;
    bool is_cut = ftruncate(journal->segment_file, (off_t)newest->whole) == 0 && fsync(journal->segment_file) == 0;
    return is_cut ? JOURNAL_DONE : journal_lost_(journal, name);
}

/* Goes on with the newest segment; or, if its engine was shut, begins the next one. */
static inline enum journal_result journal_go_on_(struct journal *journal, const struct journal_newest_ *newest, const char *manifest,
                                                 size_t length, camr_engine **engine)
{
    char fault[JOURNAL_FAULT] = "";
    bool is_other = manifest != NULL && (length != newest->own_length || memcmp(manifest, newest->own, length) != 0);
    if (is_other && !newest->is_ended) return journal_fails_(journal, JOURNAL_OTHER_MANIFEST);
    enum journal_result result = journal_recover_(journal, newest, engine);
    if (result != JOURNAL_DONE) return result;
    journal->begun = newest->is_ended ? JOURNAL_FOLLOWED : JOURNAL_RECOVERED;
    if (!newest->is_ended) return journal_append_(journal, newest);
    camr_result refused = camr_succeed(engine, manifest, manifest != NULL ? length : 0, false, fault, sizeof fault);
    if (refused != CAMR_DONE) return journal_refused_(journal, refused, NULL, fault);
    if (manifest == NULL) return journal_make_(journal, *engine, newest->own, newest->own_length);
    return journal_make_(journal, *engine, manifest, length);
}

static inline enum journal_result journal_begin_(struct journal *journal, const char *manifest, size_t length, camr_engine **engine)
{
    struct journal_listing_ listing;
    struct journal_newest_ newest;
    enum journal_result result = journal_lock_(journal, manifest, length, engine);
    if (result == JOURNAL_DONE) result = journal_list_(journal, &listing);
    if (result != JOURNAL_DONE) return result;
    if (listing.count == 0) {
        if (*engine == NULL) result = journal_open_engine_(journal, manifest, length, engine);
        return result == JOURNAL_DONE ? journal_make_(journal, *engine, manifest, length) : result;
    }
    camr_close(*engine); /* another process has begun the journal meanwhile */
    *engine = NULL;
    memset(&newest, 0, sizeof newest);
    journal->number = listing.last;
    result = journal_read_newest_(journal, &newest);
    if (result == JOURNAL_DONE) result = journal_go_on_(journal, &newest, manifest, length, engine);
    free(newest.own);
    free(newest.text);
    return result;
}

/*
 * Starts on a journal: takes its lock, and finds the engine where its newest segment leads, or opens a new one.
 *
 *   - The folder is missing, or has no segment: an engine opens with an empty history. `manifest` has `length` bytes and is needed.
 *   - The newest segment has no last line: the engine was killed, and is recovered; a line that was cut off goes. `manifest` may be NULL;
 *     if it is given, it is the one in force, byte by byte.
 *   - The newest segment has its last line: another engine follows, with `manifest`, or if that is NULL, with the same.
 *
 * journal->begun says which it was. Then journal->clock and journal->freezes have what was found: the host's readings go on from the
 * first, and the host still holds the freezes of its guests, or gives them back. camr_take_run gives the runs that were out, and camr_ccbs
 * the CCBs. With `is_synced` what is kept outlasts a stop of the machine, and otherwise the end of the process. Whatever fails, *engine is
 * NULL, the journal is closed, and, unless a file failed, nothing on the disk has changed but for the file of the lock.
 */
static inline enum journal_result journal_start(struct journal *journal, const char *folder, const char *manifest, size_t length,
                                                bool is_synced, camr_engine **engine)
{
    memset(journal, 0, sizeof *journal);
    journal->folder = folder;
    journal->is_synced = is_synced;
    journal->folder_file = journal->lock_file = journal->segment_file = -1;
    *engine = NULL;
    enum journal_result result = journal_begin_(journal, manifest, length, engine);
    if (result == JOURNAL_DONE) return result;
    camr_close(*engine);
    *engine = NULL;
    journal->is_broken = true;
    journal_close_files_(journal);
    return result;
}

/* ---- while it runs ------------------------------------------------------------------------------------------------------------------ */

/* Appends what stands in the buffer and is not in the segment yet. */
static inline enum journal_result journal_flush_(struct journal *journal)
{
    char name[JOURNAL_NAME];
    size_t before = journal->from;
    bool is_written = journal_write_(journal->segment_file, journal->lines, journal->to, &journal->from);
    journal->length += journal->from - before;
    if (is_written && (!journal->is_synced || fdatasync(journal->segment_file) == 0)) return JOURNAL_DONE;
    journal->is_broken = is_written; /* after a sync that failed nobody knows what is on the disk */
    journal_segment_name_(name, journal->number);
    return journal_lost_(journal, name);
}

/*
 * Takes the lines that are new from the engine and appends them to the segment. A host calls this before anything of what they say gets
 * out: before a command that was started goes to its device, and before somebody hears what became of a command. Then `reader`, unless
 * it is NULL, is given the lines.
 *
 * A write that failed, as on a full disk, leaves the journal as it is: the next call goes on from there, in the middle of a line if need
 * be, and the host lets nothing out before that succeeds. After a sync that failed every call returns the same fault.
 */
static inline enum journal_result journal_keep(struct journal *journal, camr_engine *engine, journal_reader *reader, void *argument)
{
    static const char first[] = "camr-trace ";
    if (journal->is_broken) return journal->result;
    for (;;) {
        if (journal->from == journal->to) {
            size_t written = 0;
            camr_result refused = camr_take(engine, journal->lines, JOURNAL_ROOM, &written);
            if (refused != CAMR_DONE) return journal_refused_(journal, refused, NULL, "");
            if (written == 0) return JOURNAL_DONE;
            journal->begin = 0;
            /* the segment has its first line */
            if (memcmp(journal->lines, first, sizeof first - 1) == 0)
                while (journal->lines[journal->begin++] != '\n') continue;
            journal->from = journal->begin;
            journal->to = written;
        }
        enum journal_result result = journal_flush_(journal);
        if (result != JOURNAL_DONE) return result;
        journal->lines[journal->to] = '\0';
        if (reader != NULL) reader(argument, journal->lines + journal->begin);
    }
}

/* Appends the last line of a trace, which camr_trace_end has put into the buffer. */
static inline enum journal_result journal_keep_end_(struct journal *journal, const char *line, size_t length)
{
    memcpy(journal->lines, line, length);
    journal->begin = journal->from = 0;
    journal->to = length;
    enum journal_result result = journal_flush_(journal);
    journal->is_broken = journal->is_broken || result != JOURNAL_DONE;
    return result;
}

/* Has another engine follow, by a manifest that is at hand: that of the segment, if it is the same. */
static inline enum journal_result journal_follow_(struct journal *journal, camr_engine **engine, const char *manifest, size_t length,
                                                  bool is_same, bool fresh)
{
    char line[128], fault[JOURNAL_FAULT] = "";
    size_t written = 0;
    camr_result refused = camr_trace_end(*engine, line, sizeof line, &written);
    if (refused == CAMR_DONE) refused = camr_succeed(engine, is_same ? NULL : manifest, is_same ? 0 : length, fresh, fault, sizeof fault);
    if (refused != CAMR_DONE) return journal_refused_(journal, refused, NULL, fault);
    enum journal_result result = journal_keep_end_(journal, line, written);
    if (result == JOURNAL_DONE && fsync(journal->segment_file) != 0) {
        char name[JOURNAL_NAME];
        journal_segment_name_(name, journal->number);
        result = journal_lost_(journal, name);
    }
    if (result == JOURNAL_DONE) result = journal_make_(journal, *engine, manifest, length);
    journal->is_broken = result != JOURNAL_DONE;
    return result;
}

/*
 * Ends the segment and begins the next one, with another engine, which takes over what the one before it left: *engine is its handle. Its
 * manifest is `manifest`, or, if that is NULL, the one in force. `reader` is given the lines that were not kept yet, as by journal_keep.
 *
 * With `fresh` CCBs and freezes are numbered anew, each from 1, in the order of their old numbers, and runs begin at 1. What camr_ccbs
 * lists first after it is what it listed first before it, and so on; journal->freezes has the freezes of guests, in their order too.
 *
 * JOURNAL_RUN_LIVE, JOURNAL_FAULTY, JOURNAL_DOES_NOT_FIT and JOURNAL_ENGINE leave the engine and the segment as they were, and both go on.
 * After JOURNAL_FILE journal->is_broken says whether the journal stands between two segments: then nothing can be kept any more, the host
 * ends, and its next start goes on from what the folder has. If it is false, lines could not be written yet, as by journal_keep.
 */
static inline enum journal_result journal_rotate(struct journal *journal, camr_engine **engine, const char *manifest, size_t length,
                                                 bool fresh, journal_reader *reader, void *argument)
{
    char name[JOURNAL_NAME], *own = NULL;
    size_t own_length = 0;
    enum journal_result result = journal_keep(journal, *engine, reader, argument);
    if (result != JOURNAL_DONE) return result;
    if (manifest != NULL) return journal_follow_(journal, engine, manifest, length, false, fresh);
    journal_manifest_name_(name, journal->number);
    if (!journal_read(journal->folder_file, name, &own, &own_length)) return journal_lost_(journal, name);
    result = journal_follow_(journal, engine, own, own_length, true, fresh);
    free(own);
    return result;
}

/* Keeps what is left, and writes the segment's last line, unless a run is live: then the next start recovers the engine. After it nothing
   more is kept, and every call returns JOURNAL_FILE. */
static inline enum journal_result journal_end(struct journal *journal, camr_engine *engine, journal_reader *reader, void *argument)
{
    char line[128];
    size_t written = 0;
    camr_totals_t totals;
    enum journal_result result = journal_keep(journal, engine, reader, argument);
    if (result != JOURNAL_DONE) return result;
    camr_result refused = camr_totals(engine, &totals);
    if (refused == CAMR_DONE && totals.runs == 0) refused = camr_trace_end(engine, line, sizeof line, &written);
    if (refused != CAMR_DONE) return journal_refused_(journal, refused, NULL, "");
    if (written != 0) result = journal_keep_end_(journal, line, written);
    if (result == JOURNAL_DONE) journal_ends_(journal);
    return result;
}

#endif
