/*
 * A label daemon's part of a targeted session, to copy from: two ends in one
 * poll() loop over a stream, each with its record. It reads whole messages, hands
 * their areas in, acts on what was lost, gained and written and on the outcome,
 * and logs a line for every answer. Run it with `make demo`; what it prints is kept
 * in daemon.txt. docs/DAEMON.md says what a daemon does, and why.
 *
 * What is small here: Common Session Parameters are sent and not tested, no timer
 * runs, labels are a set of kinds and none arrives, a Hello is a call, and neither end
 * is one that goes to Gone.
 */
#define _POSIX_C_SOURCE 200809L

#include "tacit.h"

#include <errno.h>
#include <fcntl.h>
#include <poll.h>
#include <stdio.h>
#include <stdlib.h>
#include <string.h>
#include <sys/socket.h>
#include <unistd.h>

/* ---- LDP in numbers (RFC 5036, RFC 5561, RFC 8223) ---- */

enum { PDU_HEAD = 10, MESSAGE_HEAD = 8, PDU_MOST = 4 + 4096, IDENTIFIER = 6 };

enum {
    NOTIFICATION   = 0x0001,
    INITIALIZATION = 0x0200,
    KEEPALIVE      = 0x0201,
    CAPABILITY     = 0x0202
};

/* Status codes, those that end the session with their E bit. */
#define FATAL               UINT32_C(0x80000000)
#define STATUS_CODE         UINT32_C(0x3FFFFFFF) /* without E and F */
#define BAD_IDENTIFIER      (FATAL | 0x01)
#define BAD_VERSION         (FATAL | 0x02)
#define BAD_PDU_LENGTH      (FATAL | 0x03)
#define UNKNOWN_MESSAGE     UINT32_C(0x04)
#define BAD_MESSAGE_LENGTH  (FATAL | 0x05)
#define UNKNOWN_TLV         UINT32_C(0x06)
#define BAD_TLV_LENGTH      (FATAL | 0x07)
#define MALFORMED_TLV_VALUE (FATAL | 0x08)
#define SHUT_DOWN           (FATAL | 0x0A)
#define INTERNAL_ERROR      (FATAL | 0x19)
#define MISMATCH            (FATAL | 0x4C)

/* ---- One end of the session ---- */

struct connection {
    int fd; /* -1: none */
    bool operational;
    bool closing; /* when all that is queued has gone out */
    uint8_t in[PDU_MOST];
    size_t in_length;
    uint8_t out[PDU_MOST];
    size_t out_length;
};

struct end {
    const char *name;
    bool active;
    uint8_t identifier[IDENTIFIER];
    uint8_t record[TACIT_RECORD_LENGTH];
    uint32_t capabilities; /* those of P2MP, MP2MP and HSMP that it has */
    uint32_t wishes;       /* the Apps of which we want no bindings */
    uint32_t sequence;     /* our Hellos' configuration sequence number */
    uint32_t next;         /* our next message's number; the library's begin at LIBRARY_FIRST */
    bool adjacent;         /* the peer's Hellos arrive */
    uint32_t advertised;   /* the kinds whose labels the peer has from us */
    struct connection connection;
};

#define LIBRARY_FIRST UINT32_C(0x80000000)

static struct end west = {.name = "west",
                          .active = true,
                          .identifier = {192, 0, 2, 2, 0, 0},
                          .capabilities = TACIT_CAPABILITY_P2MP | TACIT_CAPABILITY_MP2MP};
static struct end east = {.name = "east",
                          .active = false,
                          .identifier = {192, 0, 2, 1, 0, 0},
                          .capabilities = TACIT_CAPABILITY_P2MP};

static struct end *peer_of(const struct end *end)
{
    return end == &west ? &east : &west;
}

static uint8_t state_of(const struct end *end)
{
    return tacit_state(end->record, sizeof end->record);
}

static uint32_t permitted(const struct end *end)
{
    return tacit_permitted_kinds(end->record, sizeof end->record).kinds;
}

static void fail(const char *what)
{
    perror(what);
    exit(2);
}

/* ---- Numbers in octets ---- */

static uint32_t get16(const uint8_t *at)
{
    return (uint32_t)at[0] << 8 | at[1];
}

static uint32_t get32(const uint8_t *at)
{
    return get16(at) << 16 | get16(at + 2);
}

static void put16(uint8_t *at, uint32_t number)
{
    at[0] = (uint8_t)(number >> 8);
    at[1] = (uint8_t)number;
}

static void put32(uint8_t *at, uint32_t number)
{
    put16(at, number >> 16);
    put16(at + 2, number);
}

/* ---- The log ---- */

/* A line for an answer: whose, the state after it, what happened, what it came to. */
static void log_answer(const struct end *end, const char *event, struct tacit_answer answer)
{
    char line[TACIT_ANSWER_TEXT_MOST];
    tacit_answer_text(line, sizeof line, answer);
    printf("   %-5s %-6s %s: %s\n", end->name, tacit_state_text(state_of(end)), event, line);
}

static void log_deed(const struct end *end, const char *deed, const char *what)
{
    printf("   %-5s %-6s %s %s\n", end->name, "", deed, what);
}

/* ---- Labels, as a set of kinds ---- */

static void log_kinds(const struct end *end, const char *deed, uint32_t kinds)
{
    for (uint32_t kind = 0; kind <= 9; kind++)
        if ((kinds & TACIT_KIND_SET(kind)) != 0)
            log_deed(end, deed, tacit_kind_text(kind));
}

/* For an operator who misses labels of a kind. */
static void log_why(const struct end *end, uint32_t kind)
{
    struct tacit_reason why = tacit_why_not(end->record, sizeof end->record, kind);
    char deed[48];
    snprintf(deed, sizeof deed, "keeps back %s:", tacit_kind_text(kind));
    log_deed(end, deed, tacit_why_text(why.reason));
}

static void advertise(struct end *end, uint32_t kinds)
{
    log_kinds(end, "advertises labels:", kinds);
    end->advertised |= kinds;
}

static void withdraw(struct end *end, uint32_t kinds)
{
    log_kinds(end, "withdraws labels:", kinds);
    end->advertised &= ~kinds;
}

/* The connection goes, and all labels with it: nothing is to be sent. */
static void forget_labels(struct end *end)
{
    log_kinds(end, "forgets labels:", end->advertised);
    end->advertised = 0;
}

/* ---- Closing ---- */

static void hang_up(struct end *end)
{
    if (end->connection.fd < 0)
        return;
    close(end->connection.fd);
    end->connection = (struct connection){.fd = -1};
    log_deed(end, "closes", "the connection");
    /* After a mismatch the session has left Open before. */
    if (state_of(end) == TACIT_OPEN)
        log_answer(end, "closed", tacit_closed(end->record, sizeof end->record));
    forget_labels(end);
}

/* Once all that is queued has gone out. Nothing new is begun until then. */
static void hang_up_when_sent(struct end *end)
{
    end->connection.closing = true;
    end->connection.operational = false;
}

/* ---- Sending ---- */

struct message {
    uint8_t octets[256];
    size_t length;
};

static void add(struct message *message, const uint8_t *octets, size_t length)
{
    memcpy(message->octets + message->length, octets, length);
    message->length += length;
}

static struct message message_of(struct end *end, uint32_t type)
{
    struct message message = {{0}, MESSAGE_HEAD};
    put16(message.octets, type);
    put32(message.octets + 4, end->next++);
    return message;
}

/* Queues a whole message in a PDU of its own. */
static void send_octets(struct end *end, const char *name, const uint8_t *octets, size_t length)
{
    struct connection *connection = &end->connection;
    uint8_t *pdu = connection->out + connection->out_length;
    if (connection->fd < 0 ||
        connection->out_length + PDU_HEAD + length > sizeof connection->out) {
        log_deed(end, "cannot send", name);
        hang_up(end);
        return;
    }
    put16(pdu, 1);
    put16(pdu + 2, (uint32_t)(PDU_HEAD - 4 + length));
    memcpy(pdu + 4, end->identifier, IDENTIFIER);
    memcpy(pdu + PDU_HEAD, octets, length);
    connection->out_length += PDU_HEAD + length;
    log_deed(end, "sends", name);
}

static void send_message(struct end *end, const char *name, struct message *message)
{
    put16(message->octets + 2, (uint32_t)(message->length - 4));
    send_octets(end, name, message->octets, message->length);
}

/* The TAC of exactly the applications that are enabled in the record. */
static void add_tac(struct message *message, uint32_t enabled)
{
    size_t start = message->length;
    const uint8_t head[] = {0x85, 0x0F, 0, 0, 0x80};
    add(message, head, sizeof head);
    for (uint32_t ta_id = 1; ta_id <= TACIT_APPLICATIONS; ta_id++) {
        if ((enabled & TACIT_APP_SET(ta_id)) == 0)
            continue;
        const uint8_t element[] = {0, (uint8_t)ta_id, 0x80, 0};
        add(message, element, sizeof element);
    }
    put16(message->octets + start + 2, (uint32_t)(message->length - start - 4));
}

/* A TLV with S = 1 for each capability that the record holds. */
static void add_capabilities(struct message *message, uint32_t ours)
{
    static const uint8_t p2mp[] = {0x85, 0x08, 0, 1, 0x80}, mp2mp[] = {0x85, 0x09, 0, 1, 0x80};
    static const uint8_t hsmp[] = {0x89, 0x02, 0, 1, 0x80};
    if ((ours & TACIT_CAPABILITY_P2MP) != 0)
        add(message, p2mp, sizeof p2mp);
    if ((ours & TACIT_CAPABILITY_MP2MP) != 0)
        add(message, mp2mp, sizeof mp2mp);
    if ((ours & TACIT_CAPABILITY_HSMP) != 0)
        add(message, hsmp, sizeof hsmp);
}

static void send_initialization(struct end *end)
{
    /* Version 1, KeepAlive time 180, PDUs of 4,096 octets; then the receiver. */
    static const uint8_t session[] = {0x05, 0x00, 0, 14, 0, 1, 0, 180, 0, 0, 0x10, 0x00};
    static const uint8_t dynamic[] = {0x85, 0x06, 0, 1, 0x80};
    const struct tacit_session stored = tacit_load(end->record, sizeof end->record).session;
    uint8_t sac[TACIT_SAC_MOST];
    struct message message = message_of(end, INITIALIZATION);
    add(&message, session, sizeof session);
    add(&message, peer_of(end)->identifier, IDENTIFIER);
    add(&message, dynamic, sizeof dynamic);
    add_tac(&message, stored.enabled);
    add(&message, sac, tacit_wish_sac(end->wishes, sac, sizeof sac).written);
    add_capabilities(&message, stored.ours);
    send_message(end, "Initialization", &message);
}

static void send_keepalive(struct end *end)
{
    struct message message = message_of(end, KEEPALIVE);
    send_message(end, "KeepAlive", &message);
}

/* Tells the peer, naming its message at fault if there is one; a fatal status ends the session. */
static void notify(struct end *end, uint32_t status, const uint8_t *fault)
{
    struct message message = message_of(end, NOTIFICATION);
    uint8_t tlv[14] = {0x03, 0x00, 0, 10};
    char name[40];
    put32(tlv + 4, status);
    if (fault != NULL) {
        memcpy(tlv + 8, fault + 4, 4);
        memcpy(tlv + 12, fault, 2);
    }
    add(&message, tlv, sizeof tlv);
    bool fatal = (status & FATAL) != 0;
    snprintf(name, sizeof name, "Notification 0x%08lX%s", (unsigned long)(status & STATUS_CODE),
             fatal ? ", fatal" : "");
    send_message(end, name, &message);
    if (fatal)
        hang_up_when_sent(end);
}

/* ---- What an answer asks for ---- */

/* After an answer that was not refused, its message sent: the labels, or the end. */
static void act(struct end *end, struct tacit_answer answer, const uint8_t *message)
{
    if (answer.outcome == TACIT_MISMATCH || answer.outcome == TACIT_AT_LIMIT) {
        notify(end, MISMATCH, message);
        return;
    }
    if (!end->connection.operational)
        return;
    withdraw(end, answer.lost);
    advertise(end, answer.gained);
}

static uint32_t status_of(uint8_t refusal)
{
    switch (refusal) {
    case TACIT_REFUSED_AREA: return INTERNAL_ERROR;
    case TACIT_REFUSED_CUT_SHORT: return BAD_TLV_LENGTH;
    case TACIT_REFUSED_LENGTH:
    case TACIT_REFUSED_REPEATED: return MALFORMED_TLV_VALUE;
    case TACIT_REFUSED_TYPE: return UNKNOWN_TLV;
    default: return SHUT_DOWN;
    }
}

/* A message was refused, and nothing of it was applied. */
static void refuse(struct end *end, uint8_t refusal, const uint8_t *message)
{
    if (refusal == TACIT_REFUSED_STATE && state_of(end) == TACIT_OPEN)
        return; /* a second Initialization */
    notify(end, status_of(refusal), message);
    if (state_of(end) != TACIT_OPEN)
        hang_up_when_sent(end); /* no session comes of this connection */
}

/* ---- Messages that arrive: 'message' is a whole one, of 'length' octets ---- */

static void on_initialization(struct end *end, const uint8_t *message, size_t length)
{
    struct tacit_answer answer =
        tacit_initialization(end->record, sizeof end->record, message + MESSAGE_HEAD,
                             length - MESSAGE_HEAD);
    log_answer(end, "Initialization", answer);
    if (answer.refusal != 0) {
        refuse(end, answer.refusal, message);
        return;
    }
    act(end, answer, message);
    if (answer.outcome != TACIT_DONE)
        return;
    if (!end->active)
        send_initialization(end);
    send_keepalive(end);
}

/* With the first one the session is operational, and labels may go out. */
static void on_keepalive(struct end *end, const uint8_t *message)
{
    if (state_of(end) != TACIT_OPEN) {
        notify(end, SHUT_DOWN, message);
        return;
    }
    if (end->connection.operational)
        return;
    end->connection.operational = true;
    log_deed(end, "is", "operational");
    advertise(end, permitted(end));
}

static void on_capability(struct end *end, const uint8_t *message, size_t length)
{
    struct tacit_answer answer =
        tacit_capability(end->record, sizeof end->record, message + MESSAGE_HEAD,
                         length - MESSAGE_HEAD);
    log_answer(end, "Capability", answer);
    if (answer.refusal != 0)
        refuse(end, answer.refusal, message);
    else
        act(end, answer, message);
}

static void on_notification(struct end *end, const uint8_t *message, size_t length)
{
    const uint8_t *tlv = message + MESSAGE_HEAD;
    if (length < MESSAGE_HEAD + 14 || (get16(tlv) & 0x3FFF) != 0x0300 || get16(tlv + 2) != 10) {
        notify(end, MALFORMED_TLV_VALUE, message);
        return;
    }
    uint32_t status = get32(tlv + 4);
    if ((status & STATUS_CODE) == (MISMATCH & STATUS_CODE)) {
        log_answer(end, "mismatch Notification", tacit_mismatch(end->record, sizeof end->record));
        hang_up(end); /* without an answer */
    } else if ((status & FATAL) != 0) {
        hang_up(end);
    }
}

static void on_message(struct end *end, const uint8_t *message, size_t length)
{
    switch (get16(message) & 0x7FFF) {
    case NOTIFICATION: on_notification(end, message, length); break;
    case INITIALIZATION: on_initialization(end, message, length); break;
    case KEEPALIVE: on_keepalive(end, message); break;
    case CAPABILITY: on_capability(end, message, length); break;
    default:
        if ((message[0] & 0x80) == 0)
            notify(end, UNKNOWN_MESSAGE, message);
    }
}

/* ---- The stream ---- */

/* Does this end still listen? */
static bool listens(const struct end *end)
{
    return end->connection.fd >= 0 && !end->connection.closing;
}

/* Octets of the PDU at the start of the input; 0 while it has not all arrived. */
static size_t whole_pdu(struct end *end)
{
    const struct connection *connection = &end->connection;
    if (connection->in_length < PDU_HEAD)
        return 0;
    size_t length = 4 + get16(connection->in + 2);
    if (get16(connection->in) != 1)
        notify(end, BAD_VERSION, NULL);
    else if (length < PDU_HEAD || length > PDU_MOST)
        notify(end, BAD_PDU_LENGTH, NULL);
    else if (memcmp(connection->in + 4, peer_of(end)->identifier, IDENTIFIER) != 0)
        notify(end, BAD_IDENTIFIER, NULL);
    return listens(end) && length <= connection->in_length ? length : 0;
}

/* The messages of one PDU. */
static void take_messages(struct end *end, const uint8_t *pdu, size_t length)
{
    size_t at = PDU_HEAD;
    while (at < length && listens(end)) {
        size_t left = length - at;
        size_t message = left < MESSAGE_HEAD ? 0 : 4 + get16(pdu + at + 2);
        if (message < MESSAGE_HEAD || message > left) {
            notify(end, BAD_MESSAGE_LENGTH, NULL);
            return;
        }
        on_message(end, pdu + at, message);
        at += message;
    }
}

static void take_pdus(struct end *end)
{
    struct connection *connection = &end->connection;
    size_t length;
    while (listens(end) && (length = whole_pdu(end)) != 0) {
        take_messages(end, connection->in, length);
        if (!listens(end))
            return;
        connection->in_length -= length;
        memmove(connection->in, connection->in + length, connection->in_length);
    }
}

/* Few octets at once, so that here every message comes in pieces. */
enum { READ_AT_ONCE = 7 };

static void receive(struct end *end)
{
    struct connection *connection = &end->connection;
    if (connection->closing)
        connection->in_length = 0; /* read and not heeded */
    size_t room = sizeof connection->in - connection->in_length;
    ssize_t got = recv(connection->fd, connection->in + connection->in_length,
                       room < READ_AT_ONCE ? room : READ_AT_ONCE, 0);
    if (got < 0 && (errno == EAGAIN || errno == EINTR))
        return;
    if (got <= 0) {
        hang_up(end);
        return;
    }
    connection->in_length += (size_t)got;
    take_pdus(end);
}

static void flush(struct end *end)
{
    struct connection *connection = &end->connection;
    ssize_t gone = send(connection->fd, connection->out, connection->out_length, MSG_NOSIGNAL);
    if (gone < 0 && (errno == EAGAIN || errno == EINTR))
        return;
    if (gone < 0) {
        hang_up(end);
        return;
    }
    connection->out_length -= (size_t)gone;
    memmove(connection->out, connection->out + gone, connection->out_length);
    if (connection->closing && connection->out_length == 0)
        hang_up(end);
}

/* The loop, until nothing is left to read or write; a daemon would wait for its next timer. */
static void run(void)
{
    struct end *const ends[] = {&west, &east};
    for (;;) {
        struct pollfd polled[2];
        for (int i = 0; i < 2; i++)
            polled[i] = (struct pollfd){
                ends[i]->connection.fd,
                (short)(POLLIN | (ends[i]->connection.out_length != 0 ? POLLOUT : 0)), 0};
        int ready = poll(polled, 2, 0);
        if (ready < 0 && errno != EINTR)
            fail("poll");
        if (ready == 0)
            return;
        for (int i = 0; ready > 0 && i < 2; i++) {
            if ((polled[i].revents & POLLOUT) != 0)
                flush(ends[i]);
            if ((polled[i].revents & (POLLIN | POLLHUP | POLLERR)) != 0 &&
                ends[i]->connection.fd == polled[i].fd)
                receive(ends[i]);
        }
    }
}

/* ---- Connections, Hellos, the operator ---- */

static void begin_connection(struct end *end, int fd)
{
    int flags = fcntl(fd, F_GETFL);
    if (flags < 0 || fcntl(fd, F_SETFL, flags | O_NONBLOCK) < 0)
        fail("fcntl");
    hang_up(end);
    end->connection = (struct connection){.fd = fd};
}

/* The active end connects in Ready alone. Stands for connect() here and accept() there. */
static void connect_if_ready(struct end *end)
{
    int pair[2];
    if (!end->active || !end->adjacent || end->connection.fd >= 0 || state_of(end) != TACIT_READY)
        return;
    if (socketpair(AF_UNIX, SOCK_STREAM, 0, pair) < 0)
        fail("socketpair");
    begin_connection(end, pair[0]);
    begin_connection(peer_of(end), pair[1]);
    log_deed(end, "opens", "a connection");
    send_initialization(end);
}

static void hear_hello(struct end *end, uint32_t number)
{
    char event[32];
    struct tacit_answer answer = tacit_hello(end->record, sizeof end->record, number);
    snprintf(event, sizeof event, "Hello number %lu", (unsigned long)number);
    log_answer(end, event, answer);
    end->adjacent = true;
    connect_if_ready(end);
}

/* Stands for a targeted Hello with our configuration sequence number. */
static void say_hello(const struct end *end)
{
    hear_hello(peer_of(end), end->sequence);
}

/* From the first Initialization on what the operator wants has to wait. */
static bool puts_off(const struct end *end, const char *event)
{
    bool opening = end->connection.fd >= 0 && !end->connection.operational;
    if (opening)
        log_deed(end, "puts off until it is operational:", event);
    return opening;
}

/* Answers whether the change was made. */
static bool change(struct end *end, uint32_t ta_id, bool on)
{
    uint8_t room[TACIT_MESSAGE_LENGTH];
    char event[48];
    snprintf(event, sizeof event, "%s %s", tacit_application_text(ta_id), on ? "on" : "off");
    if (puts_off(end, event))
        return false;
    struct tacit_answer answer =
        tacit_local_change(end->record, sizeof end->record, ta_id, on, room, sizeof room);
    log_answer(end, event, answer);
    if (answer.refusal != 0 || answer.outcome == TACIT_UNCHANGED)
        return answer.refusal == 0;
    end->sequence++;
    if (answer.written != 0)
        send_octets(end, "Capability", room, answer.written); /* before the labels */
    act(end, answer, NULL);
    say_hello(end);
    connect_if_ready(end);
    return true;
}

/* Which bindings the operator wants. Where no message can say it the next Initialization will. */
static void wish(struct end *end, uint32_t app, bool disable)
{
    uint8_t room[TACIT_WISH_LENGTH];
    char event[48];
    snprintf(event, sizeof event, "%s %s", disable ? "stop" : "take again",
             tacit_sac_app_text(app));
    if (puts_off(end, event))
        return;
    struct tacit_wished wished = tacit_wish(end->record, sizeof end->record, end->wishes, app,
                                            disable, room, sizeof room);
    uint8_t refusal = wished.answer.refusal;
    log_answer(end, event, wished.answer);
    end->wishes = wished.wishes;
    if (wished.answer.written != 0)
        send_octets(end, "Capability", room, wished.answer.written);
    if (refusal == TACIT_REFUSED_STATE || refusal == TACIT_REFUSED_NOT_DYNAMIC)
        end->wishes ^= TACIT_SAC_SET(app);
    if (refusal == TACIT_REFUSED_NOT_DYNAMIC)
        notify(end, SHUT_DOWN, NULL); /* only a new session can tell this peer */
}

/* ---- The story ---- */

static unsigned unexpected;

static void expect(bool holds, const char *what)
{
    if (holds)
        return;
    unexpected++;
    printf("   NOT AS EXPECTED: %s\n", what);
}

static void expect_both(uint8_t state, uint32_t kinds)
{
    struct end *const ends[] = {&west, &east};
    for (int i = 0; i < 2; i++) {
        expect(state_of(ends[i]) == state, "the state");
        expect(permitted(ends[i]) == kinds, "the kinds permitted");
        expect(ends[i]->advertised == kinds, "labels out of exactly these kinds");
    }
}

static void step(const char *title)
{
    static unsigned number;
    printf("\n%u. %s\n", ++number, title);
}

static const uint32_t routes = TACIT_KIND_SET(TACIT_KIND_IPV4_PREFIX);
static const uint32_t pseudowires = TACIT_KIND_SET(TACIT_KIND_GENERALIZED_PWID);

/* Both use TAC; west began the discovery, and keeps the adjacency after a mismatch. */
static void begin(void)
{
    const uint32_t enabled =
        TACIT_APP_SET(TACIT_APP_LDPV4_REMOTE_LFA) | TACIT_APP_SET(TACIT_APP_FEC129_PW);
    struct end *const ends[] = {&west, &east};
    puts("A DAEMON IN SMALL");
    puts("");
    puts("Two ends of a targeted session in one loop. Each line is whose it is, the state");
    puts("after an answer, what happened and what the library answered; or what the");
    puts("daemon did. Both support LDPv4 Remote LFA and FEC 129 PW, and hold the capability");
    puts("P2MP; west holds MP2MP besides.");
    for (int i = 0; i < 2; i++) {
        struct tacit_settings settings = {.initiating = ends[i]->active,
                                          .active = ends[i]->active,
                                          .uses_tac = true,
                                          .enabled = enabled,
                                          .first_number = LIBRARY_FIRST,
                                          .wishes = ends[i]->wishes,
                                          .capabilities = ends[i]->capabilities};
        ends[i]->connection.fd = -1;
        ends[i]->sequence = ends[i]->next = 1;
        expect(tacit_create(ends[i]->record, sizeof ends[i]->record, settings) == 0,
               "a session is created");
    }
}

static void opens(void)
{
    step("Hellos arrive, and the session opens");
    say_hello(&west);
    say_hello(&east);
    run();
    expect_both(TACIT_OPEN, routes | pseudowires);
}

static void loses_and_finds(void)
{
    step("East's operator switches FEC 129 PW off");
    expect(change(&east, TACIT_APP_FEC129_PW, false), "it is switched");
    run();
    expect_both(TACIT_OPEN, routes);

    step("East's operator switches it on again");
    expect(change(&east, TACIT_APP_FEC129_PW, true), "it is switched");
    run();
    expect_both(TACIT_OPEN, routes | pseudowires);
}

static void ends_in_a_mismatch(void)
{
    step("East's operator switches off all that is common");
    expect(change(&east, TACIT_APP_FEC129_PW, false), "it is switched");
    run();
    expect(change(&east, TACIT_APP_LDPV4_REMOTE_LFA, false), "it is switched");
    run();
    expect(state_of(&west) == TACIT_HELD && state_of(&east) == TACIT_READY, "west is held");
    expect(west.connection.fd < 0 && east.connection.fd < 0, "the connection is closed");
    expect(west.advertised == 0 && east.advertised == 0, "no labels are out");
}

static void wakes_by_a_hello(void)
{
    step("The same Hello does not wake west, a change at east does");
    say_hello(&east);
    run();
    expect(state_of(&west) == TACIT_HELD && west.connection.fd < 0, "west is held");
    expect(change(&east, TACIT_APP_FEC129_PW, true), "it is switched");
    expect(!change(&west, TACIT_APP_ICCP, true), "no change while the session opens");
    run();
    expect_both(TACIT_OPEN, pseudowires);
}

/* What a faulty peer might send: a SAC that claims two octets and has one. */
static void a_broken_message(void)
{
    static const uint8_t broken[] = {0x02, 0x02, 0, 9, 0, 0, 0, 99, 0x85, 0x0D, 0, 2, 0x80};
    step("East sends a message that breaks off");
    send_octets(&east, "Capability, broken off", broken, sizeof broken);
    run();
    expect_both(TACIT_READY, 0);

    step("West's backoff is over");
    connect_if_ready(&west);
    run();
    expect_both(TACIT_OPEN, pseudowires);
}

/* Of what is common now, the pseudowires. */
static void a_wish(void)
{
    step("West's operator wants no bindings of FEC 129 pseudowires");
    wish(&west, TACIT_SAC_FEC129_PW, true);
    run();
    expect(permitted(&east) == 0 && east.advertised == 0, "east has withdrawn its labels");
    expect(permitted(&west) == pseudowires, "west may send its own");

    step("The connection is lost and comes back, and the wish stays");
    hang_up(&west);
    run();
    connect_if_ready(&west);
    run();
    expect(permitted(&east) == 0 && east.advertised == 0, "east has been told again");

    step("It is lost once more, and meanwhile west's operator takes them again");
    hang_up(&west);
    run();
    wish(&west, TACIT_SAC_FEC129_PW, false);
    connect_if_ready(&west);
    run();
    expect_both(TACIT_OPEN, pseudowires);
}

/* mLDP Tunneling opens five kinds. Both ends hold what one of them needs. */
static void trees(void)
{
    const uint32_t p2mp = TACIT_KIND_SET(TACIT_KIND_P2MP);
    step("Both operators switch mLDP Tunneling on");
    expect(change(&west, TACIT_APP_MLDP_TUNNELING, true), "it is switched");
    run();
    expect(change(&east, TACIT_APP_MLDP_TUNNELING, true), "it is switched");
    run();
    expect_both(TACIT_OPEN, pseudowires | p2mp);
    log_why(&west, TACIT_KIND_MP2MP_DOWN);
    log_why(&east, TACIT_KIND_MP2MP_DOWN);
}

int main(void)
{
    begin();
    opens();
    loses_and_finds();
    ends_in_a_mismatch();
    wakes_by_a_hello();
    a_broken_message();
    a_wish();
    trees();
    if (unexpected == 0)
        puts("\nAll as expected.");
    else
        printf("\n%u NOT AS EXPECTED\n", unexpected);
    return unexpected == 0 ? 0 : 1;
}
