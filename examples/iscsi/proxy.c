/*
 * Stands between an initiator and an iSCSI target on the loopback interface, and makes the faults that the target does not make. It
 * changes real answers, so all else about them is as the target does it. It is told what to do by lines of standard input:
 *
 *     status SS N      the next N good answers to a READ or WRITE get this SCSI status, in hexadecimal
 *     sense HEX N      they get CHECK CONDITION with these sense bytes
 *     lose N [LUN]     they do not arrive, of that LUN alone if one is named; N more, if some are still to be lost
 *     hold             the next WRITE is held back, as by a disk that is slow: once its blocks were written again, and once more
 *                      after that, it is carried out just before they are read. A LUN RESET and the end of the connection drop it
 *     cut              half of the next answer arrives, and the connection ends
 *     drop             the connection ends
 *
 *     proxy LISTEN-PORT TARGET-PORT
 */
#define _POSIX_C_SOURCE 200809L
#include <arpa/inet.h>
#include <errno.h>
#include <fcntl.h>
#include <netinet/in.h>
#include <netinet/tcp.h>
#include <poll.h>
#include <signal.h>
#include <stdbool.h>
#include <stdint.h>
#include <stdio.h>
#include <stdlib.h>
#include <string.h>
#include <sys/socket.h>
#include <unistd.h>

enum { HEADER = 48, MOST = 1 << 20, TASKS = 4096, LINKS = 8, MOST_SENSE = 252 };
enum { OP_COMMAND = 0x01, OP_TASK = 0x02, OP_RESPONSE = 0x21, OP_DATA_IN = 0x25, IMMEDIATE = 0x40 };
enum { LUN_RESET = 5, READ10 = 0x28, WRITE10 = 0x2a };

struct bytes {
    unsigned char *at;
    size_t length;
};

/* A connection: what came from either side and is no whole PDU yet, what is still to be sent there, and its commands by their tags. */
struct link {
    bool is_open;
    int fd[2];                      /* the initiator's, the target's */
    struct bytes in[2], out[2];
    bool ends;
    uint32_t command_number;        /* of the next command */
    struct { uint32_t tag; unsigned char header[HEADER]; bool is_hidden; } tasks[TASKS];
    struct bytes held;              /* the WRITE that is held back */
    unsigned answered;              /* how many other writes of its blocks were answered since */
    bool is_given;                  /* the target has it now, */
    struct bytes after;             /* and then gets this READ */
};
static struct link links[LINKS];

/* What is to be done with the next answers. */
static struct {
    enum { NOTHING, CHANGE, LOSE } what;
    unsigned count, lun;            /* of which LUN, or 0 for each */
    unsigned char status, sense[MOST_SENSE];
    size_t length;
    bool hold, cut;
} order;

static void end(const char *text)
{
    fprintf(stderr, "proxy: %s\n", text);
    exit(1);
}

static uint32_t word_at(const unsigned char *at)
{
    return (uint32_t)at[0] << 24 | (uint32_t)at[1] << 16 | (uint32_t)at[2] << 8 | at[3];
}

static void put_word(unsigned char *at, uint32_t word)
{
    for (int byte = 0; byte < 4; byte++) at[byte] = (unsigned char)(word >> (24 - 8 * byte));
}

static void append(struct bytes *to, const unsigned char *from, size_t length)
{
    if (to->length + length > MOST) end("too much waits to be sent");
    if (to->at == NULL && (to->at = malloc(MOST)) == NULL) end("no memory");
    memcpy(to->at + to->length, from, length);
    to->length += length;
}

static void take(struct bytes *from, size_t length)
{
    memmove(from->at, from->at + length, from->length - length);
    from->length -= length;
}

static void forget(struct bytes *which)
{
    free(which->at);
    which->at = NULL;
    which->length = 0;
}

static void close_link(struct link *link)
{
    for (int side = 0; side < 2; side++) {
        close(link->fd[side]);
        forget(&link->in[side]);
        forget(&link->out[side]);
    }
    forget(&link->held);
    forget(&link->after);
    memset(link, 0, sizeof *link);
}

/* ---- from the initiator to the target ------------------------------------------------------------------------------------------- */

static bool is_same_blocks(const unsigned char *one, const unsigned char *other)
{
    return memcmp(one + 8, other + 8, 8) == 0 && memcmp(one + 34, other + 34, 4) == 0;
}

/* Holds a WRITE back. A TEST UNIT READY of the same number goes in its place, since the target takes commands by their numbers. */
static void hold(struct link *link, const unsigned char *pdu, size_t length, uint32_t place)
{
    unsigned char instead[HEADER];
    memcpy(instead, pdu, HEADER);
    append(&link->held, pdu, length);
    link->answered = 0;
    order.hold = false;
    instead[1] = 0x81;
    memset(instead + 4, 0, 4);
    memset(instead + 20, 0, 4);
    memset(instead + 32, 0, 16);
    link->tasks[place].is_hidden = true;
    append(&link->out[1], instead, HEADER);
}

/* Gives the target the WRITE that was held back, now beside the order of numbers. */
static void give_held(struct link *link)
{
    link->held.at[0] |= IMMEDIATE;
    put_word(link->held.at + 24, link->command_number);
    append(&link->out[1], link->held.at, link->held.length);
    link->is_given = true;
}

/* The WRITE is no longer held back: the READ that waits for it goes on. */
static void forget_held(struct link *link)
{
    if (link->after.length != 0) append(&link->out[1], link->after.at, link->after.length);
    forget(&link->after);
    forget(&link->held);
    link->is_given = false;
}

static void from_initiator(struct link *link, const unsigned char *pdu, size_t length)
{
    uint32_t tag = word_at(pdu + 16), place = tag % TASKS;
    unsigned code = pdu[0] & 0x3f;
    bool is_held = link->held.length != 0;
    if (is_held && code == OP_TASK && (pdu[1] & 0x7f) == LUN_RESET && memcmp(pdu + 8, link->held.at + 8, 8) == 0) forget_held(link);
    if (code == OP_COMMAND) {
        link->tasks[place].tag = tag;
        memcpy(link->tasks[place].header, pdu, HEADER);
        link->tasks[place].is_hidden = false;
        link->command_number = word_at(pdu + 24) + 1;
        if (order.hold && pdu[32] == WRITE10 && !is_held) {
            hold(link, pdu, length, place);
            return;
        }
        if (is_held && !link->is_given && link->answered >= 2 && pdu[32] == READ10 && is_same_blocks(pdu, link->held.at)) {
            append(&link->after, pdu, length);
            give_held(link);
            return;
        }
    }
    append(&link->out[1], pdu, length);
}

/* ---- from the target to the initiator ------------------------------------------------------------------------------------------- */

/* An answer with another status, and sense bytes, made of the one that came. */
static void change(struct link *link, const unsigned char *pdu, size_t length)
{
    unsigned char made[HEADER + 2 + MOST_SENSE + 3] = {0};
    size_t data = order.length != 0 ? 2 + order.length : 0;
    made[0] = OP_RESPONSE;
    made[1] = 0x80;
    made[3] = order.status;
    made[6] = (unsigned char)(data >> 8);
    made[7] = (unsigned char)data;
    memcpy(made + 16, pdu + 16, 4);
    memcpy(made + 24, pdu + 24, 12);
    if ((pdu[0] & 0x3f) == OP_DATA_IN) {
        /* the data goes first, without a status */
        append(&link->out[0], pdu, length);
        unsigned char *sent = link->out[0].at + link->out[0].length - length;
        sent[1] &= 0xfe;
        sent[3] = 0;
        put_word(sent + 24, 0);
        put_word(made + 36, word_at(pdu + 36) + 1);
    }
    if (data != 0) {
        made[HEADER] = (unsigned char)(order.length >> 8);
        made[HEADER + 1] = (unsigned char)order.length;
        memcpy(made + HEADER + 2, order.sense, order.length);
    }
    append(&link->out[0], made, HEADER + ((data + 3) & ~(size_t)3));
}

static void from_target(struct link *link, const unsigned char *pdu, size_t length)
{
    unsigned code = pdu[0] & 0x3f;
    uint32_t tag = word_at(pdu + 16), place = tag % TASKS;
    const unsigned char *task = link->tasks[place].header;
    bool is_answer = code == OP_RESPONSE || (code == OP_DATA_IN && pdu[1] & 1);
    if (is_answer && link->is_given && tag == word_at(link->held.at + 16)) {
        forget_held(link);
        return;
    }
    if (!is_answer || link->tasks[place].tag != tag) {
        append(&link->out[0], pdu, length);
        return;
    }
    if (link->tasks[place].is_hidden) return;
    bool is_good = pdu[3] == 0 && (task[32] == READ10 || task[32] == WRITE10);
    if (is_good && link->held.length != 0 && task[32] == WRITE10 && is_same_blocks(task, link->held.at)) link->answered++;
    if (is_good && order.cut) {
        order.cut = false;
        append(&link->out[0], pdu, HEADER / 2);
        link->ends = true;
        return;
    }
    if (!is_good || order.what == NOTHING || (order.what == LOSE && order.lun != 0 && task[9] != order.lun)) {
        append(&link->out[0], pdu, length);
        return;
    }
    if (order.what == CHANGE) change(link, pdu, length);
    if (--order.count == 0) order.what = NOTHING;
}

/* ---- the loop --------------------------------------------------------------------------------------------------------------------- */

static void move_pdus(struct link *link, int side)
{
    struct bytes *in = &link->in[side];
    while (in->length >= HEADER && !link->ends) {
        size_t data = (size_t)in->at[5] << 16 | (size_t)in->at[6] << 8 | in->at[7];
        size_t length = HEADER + (size_t)in->at[4] * 4 + ((data + 3) & ~(size_t)3);
        if (length > MOST) end("no iSCSI goes here");
        if (in->length < length) return;
        if (side == 0) from_initiator(link, in->at, length);
        else from_target(link, in->at, length);
        take(in, length);
    }
}

static void receive(struct link *link, int side)
{
    static unsigned char some[65536];
    ssize_t length = recv(link->fd[side], some, sizeof some, 0);
    if (length > 0) {
        append(&link->in[side], some, (size_t)length);
        move_pdus(link, side);
    } else if (length == 0 || (errno != EAGAIN && errno != EINTR)) {
        link->ends = true;
    }
}

static void send_some(struct link *link, int side)
{
    struct bytes *out = &link->out[side];
    if (out->length == 0) return;
    ssize_t length = send(link->fd[side], out->at, out->length, MSG_NOSIGNAL);
    if (length > 0) take(out, (size_t)length);
    else if (errno != EAGAIN && errno != EINTR) link->ends = true;
}

static struct sockaddr_in address_of(unsigned long port)
{
    struct sockaddr_in address = {.sin_family = AF_INET, .sin_port = htons((uint16_t)port)};
    address.sin_addr.s_addr = htonl(INADDR_LOOPBACK);
    return address;
}

static void make_ready(int fd)
{
    int one = 1;
    fcntl(fd, F_SETFL, O_NONBLOCK);
    setsockopt(fd, IPPROTO_TCP, TCP_NODELAY, &one, sizeof one);
}

/* Takes a connection, and makes one to the target for it; if there is no target it is closed again. */
static void accept_link(int listener, unsigned long port)
{
    struct sockaddr_in address = address_of(port);
    struct link *link = links;
    int initiator = accept(listener, NULL, NULL), target = socket(AF_INET, SOCK_STREAM, 0);
    while (link < links + LINKS && link->is_open) link++;
    if (initiator < 0 || target < 0 || link == links + LINKS || connect(target, (struct sockaddr *)&address, sizeof address) != 0) {
        close(initiator);
        close(target);
        return;
    }
    make_ready(initiator);
    make_ready(target);
    link->is_open = true;
    link->fd[0] = initiator;
    link->fd[1] = target;
}

static void obey(char *line)
{
    char hex[2 * MOST_SENSE + 1] = "";
    unsigned count = 0, status = 0, lun = 0;
    if (sscanf(line, "status %x %u", &status, &count) == 2) {
        order.what = CHANGE;
        order.status = (unsigned char)status;
        order.length = 0;
        order.count = count;
    } else if (sscanf(line, "sense %504s %u", hex, &count) == 2) {
        order.what = CHANGE;
        order.status = 0x02;
        order.count = count;
        for (order.length = 0; sscanf(hex + 2 * order.length, "%2x", &status) == 1; order.length++)
            order.sense[order.length] = (unsigned char)status;
    } else if (sscanf(line, "lose %u %u", &count, &lun) >= 1) {
        order.count = order.what == LOSE && count != 0 ? order.count + count : count;
        order.what = LOSE;
        order.lun = lun;
    } else if (strcmp(line, "hold") == 0) {
        order.hold = true;
    } else if (strcmp(line, "cut") == 0) {
        order.cut = true;
    } else if (strcmp(line, "drop") == 0) {
        for (struct link *link = links; link < links + LINKS; link++) link->ends = link->is_open;
    } else {
        fprintf(stderr, "proxy: %s: no such line\n", line);
    }
    if (order.count == 0) order.what = NOTHING;
}

/* Reads what standard input has, and carries its whole lines out. False at its end. */
static bool read_orders(void)
{
    static char text[4096];
    static size_t length;
    ssize_t more = read(0, text + length, sizeof text - length);
    if (more <= 0) return false;
    length += (size_t)more;
    char *at = text, *stop;
    while ((stop = memchr(at, '\n', length - (size_t)(at - text))) != NULL) {
        *stop = '\0';
        obey(at);
        at = stop + 1;
    }
    length -= (size_t)(at - text);
    memmove(text, at, length);
    return length < sizeof text;
}

static void serve(int listener, unsigned long port)
{
    for (;;) {
        struct pollfd places[2 + 2 * LINKS] = {{0, POLLIN, 0}, {listener, POLLIN, 0}};
        for (int at = 0; at < 2 * LINKS; at++) {
            struct link *link = &links[at / 2];
            places[2 + at].fd = link->is_open ? link->fd[at % 2] : -1;
            places[2 + at].events = (short)(POLLIN | (link->out[at % 2].length != 0 ? POLLOUT : 0));
        }
        if (poll(places, 2 + 2 * LINKS, -1) < 0) continue;
        if (places[0].revents != 0 && !read_orders()) return;
        for (int at = 0; at < 2 * LINKS; at++) {
            struct link *link = &links[at / 2];
            if (places[2 + at].fd < 0) continue;
            if (places[2 + at].revents & (POLLIN | POLLHUP | POLLERR)) receive(link, at % 2);
        }
        for (struct link *link = links; link < links + LINKS; link++) {
            if (!link->is_open) continue;
            for (int side = 0; side < 2; side++) send_some(link, side);
            if (link->ends) close_link(link);
        }
        if (places[1].revents & POLLIN) accept_link(listener, port);
    }
}

int main(int count, char **words)
{
    int listener = socket(AF_INET, SOCK_STREAM, 0), one = 1;
    if (count != 3) {
        fprintf(stderr, "usage: proxy LISTEN-PORT TARGET-PORT\n");
        return 2;
    }
    struct sockaddr_in address = address_of(strtoul(words[1], NULL, 10));
    signal(SIGPIPE, SIG_IGN);
    setsockopt(listener, SOL_SOCKET, SO_REUSEADDR, &one, sizeof one);
    if (bind(listener, (struct sockaddr *)&address, sizeof address) != 0 || listen(listener, LINKS) != 0)
        end("the port cannot be listened on");
    serve(listener, strtoul(words[2], NULL, 10));
    return 0;
}
