/*
 * tacit.h - application negotiation for targeted LDP sessions
 *
 * Targeted Application Capability (TAC, RFC 8223) and State Advertisement
 * Control (SAC, RFC 7473), with the P2MP, MP2MP and HSMP capabilities that mLDP's
 * kinds of label need (RFC 6388, RFC 7140). The library reads the optional
 * parameters of Initialization and Capability messages, keeps the session's state,
 * says which kinds of label may be sent, and writes the Capability message for a
 * change made at this end and for a wish of its own: kinds that the peer is to
 * send no bindings of. TCP, timers, Hello and Notification octets, the PDU header,
 * addresses and the label database stay with the daemon.
 *
 * This is the manual of the calls. docs/DAEMON.md says how a daemon drives them
 * from discovery to close, and what the RFCs ask of the part that stays with it.
 *
 * The session is a record of 24 octets that you own. You create it, hand it to
 * every call, and may store it or copy it as you like. The library keeps
 * nothing between calls, allocates nothing and calls nothing, not even libc.
 * Calls on different records may run at once; calls on one record may not,
 * unless none of them writes it. Records that an older version stored are moved
 * first: see "Records of kind 1".
 *
 * A daemon with limits on how many sessions use an application, or one that asks
 * before a batch of labels how many sessions may get them, keeps its sessions in
 * a row instead, an array of up to 64 struct tacit_session with its totals beside
 * it, and hands both to every event: see "Rows of sessions". For calls that run at
 * once, a row with its totals is as one record.
 *
 * Link with libtacit.a and nothing else. C11 or C++17, x86-64.
 *
 *
 * What holds for every call
 *
 * - It returns, whatever the octets, the numbers and the record are. Nothing
 *   need be checked before.
 * - A buffer is a pointer and a length in octets. Any alignment will do. With
 *   length 0 the pointer may be NULL.
 * - A refusal is a number of enum tacit_refusal; 0 is none. It has a
 *   field of its own and is never mixed with a result. A refused call leaves
 *   every buffer exactly as it was, and all other fields of its answer are 0,
 *   except where the call says what they are instead.
 * - Where several refusals apply, the first in the order given at the call is
 *   the one that you get.
 * - An event that is "for" certain states is refused with 7 in the others.
 * - Numbers are 32 bits wide, so that a wrong one is refused and not cut down
 *   to a right one on its way in.
 * - It allocates nothing. The stack that it takes is a few hundred octets,
 *   whatever it is handed: docs/TRUST.md has how many.
 *
 * What the library cannot check, and you must see to
 *
 * - Each pointer is good for the length that goes with it.
 * - The buffers of one call do not overlap where one of them is written: the
 *   record or the row, the two records of a move, the row's totals, the area, and
 *   the room.
 * - A row of sessions is aligned as C aligns an array of them.
 * - A bool is made by C: true or false, not an octet copied from elsewhere.
 */
#ifndef TACIT_H
#define TACIT_H

#include <stdbool.h>
#include <stddef.h>
#include <stdint.h>

#ifdef __cplusplus
extern "C" {
#define TACIT_ASSERT(fact) static_assert(fact, #fact)
#else
#define TACIT_ASSERT(fact) _Static_assert(fact, #fact)
#endif

/* ------------------------------------------------------------------------ */
/* Numbers                                                                   */
/* ------------------------------------------------------------------------ */

/* The version of this header and its library, to be compared, and for a log. */
#define TACIT_VERSION      50000 /* 5.0.0: two digits for each number behind the first */
#define TACIT_VERSION_TEXT "5.0.0"

#define TACIT_RECORD_LENGTH  24   /* octets of a record */
#define TACIT_KIND1_LENGTH   22   /* octets of a record of kind 1, as older versions had it */
#define TACIT_MESSAGE_LENGTH 17   /* octets of the message of a local change */
#define TACIT_WISH_LENGTH    14   /* octets of the message of a wish */
#define TACIT_MESSAGE_AREA    8   /* where in either the parameter area starts, to its end */
#define TACIT_SAC_MOST        9   /* octets of the SAC for an Initialization, at the most */
#define TACIT_AREA_MOST      4096 /* octets that an area may have */
#define TACIT_ROW_MOST       64   /* sessions that a row may have */
#define TACIT_LIMIT_MOST     64   /* the highest limit, and the one until another is set */
#define TACIT_APPLICATIONS   13   /* how many there are: TA-Ids 1 to 13 */
#define TACIT_KINDS          10   /* how many there are: 0 to 9 */

/*
 * Refusals. A call that asks for one gives it exactly when what stands beside it
 * is so.
 */
enum tacit_refusal {
    TACIT_NOT_REFUSED          = 0,
    TACIT_REFUSED_AREA         = 1,  /* the area has more than 4,096 octets */
    TACIT_REFUSED_CUT_SHORT    = 2,  /* too few octets for the head of a TLV (1 to 3), or
                                        fewer behind it than its length says */
    TACIT_REFUSED_LENGTH       = 3,  /* a TAC whose length is not 1, 5, 9, ..; a SAC of
                                        length 0 or 1; a Dynamic Capability Announcement
                                        or a P2MP, MP2MP or HSMP capability of a length
                                        other than 1 */
    TACIT_REFUSED_TYPE         = 4,  /* a type that we do not read and may not pass over:
                                        U is 0, and it is not in 0x0500 to 0x05FF */
    TACIT_REFUSED_REPEATED     = 5,  /* TAC, SAC, Dynamic or one of the three capabilities
                                        stands there twice */
    TACIT_REFUSED_NUMBER       = 6,  /* not a TA-Id (1 to 13), not a kind (0 to 9), or a set
                                        with a bit that is none of these; at creation,
                                        wishes with a bit that is no App's, or
                                        capabilities with one beyond the three */
    TACIT_REFUSED_STATE        = 7,  /* the event is not for the state of the session */
    TACIT_REFUSED_ROOM         = 8,  /* there is something to write, and fewer octets of room
                                        than it has: 17 for a local change, 14 for a
                                        wish, 6 to 9 for the SAC of an Initialization */
    TACIT_REFUSED_NOT_DYNAMIC  = 9,  /* there is a message to write, and the peer takes no
                                        Capability messages */
    TACIT_REFUSED_NOT_SOUND    = 10, /* the record, the session or any session of the row
                                        is not sound (see tacit_sound, for kind 1
                                        tacit_forward); the room for a new record is
                                        not of its size: 24 octets, or 22 at tacit_back;
                                        kept wishes with a bit that is no App's */
    TACIT_REFUSED_ROW          = 11, /* the row is empty or has more than 64 sessions, or
                                        the row number is outside it */
    TACIT_REFUSED_LIMIT        = 12, /* a limit to be set is over 64 */
    TACIT_REFUSED_CAPABILITIES = 13, /* tacit_back: a capability is held, ours or the
                                        peer's, and a record of kind 1 has no place for
                                        it */
    TACIT_REFUSED_APP          = 15, /* not a SAC App (1 to 4) */
    TACIT_REFUSED_TOTAL        = 16  /* the event would take a total outside 0 to 64: the
                                        totals are not those of this row */
};

/* What an event came to. */
enum tacit_outcome {
    TACIT_DONE      = 0,  /* it happened; also with every refusal */
    TACIT_UNCHANGED = 1,  /* it was so already; the record is as it was */
    TACIT_MISMATCH  = 2,  /* no application is common to both ends, or so the peer says */
    TACIT_AT_LIMIT  = 3   /* there are common applications, and as many sessions of the row
                             as its limit allows use each of them; the state is as after
                             a mismatch. Only tacit_row_initialization comes to this */
};

enum tacit_state_number {
    TACIT_READY    = 0,   /* waiting for an Initialization */
    TACIT_OPEN     = 1,   /* labels may be sent */
    TACIT_HELD     = 2,   /* after a mismatch, until a change at either end */
    TACIT_GONE     = 3,   /* after a mismatch: the adjacency is to be torn down */
    TACIT_NO_STATE = 255  /* tacit_state of a record that is not sound */
};

/*
 * Why a kind of label may not be sent: the first of these, from 1 on, that is so.
 * An application opens the kinds that stand beside it at enum tacit_application; the
 * capability that a kind needs stands beside it at enum tacit_kind.
 */
enum tacit_why {
    TACIT_PERMITTED             = 0,  /* none of them: it may be sent; also with every
                                         refusal */
    TACIT_NOT_OPEN              = 1,  /* the session is not Open */
    TACIT_DISABLED_BY_PEER      = 2,  /* the peer has disabled the kind, by SAC */
    TACIT_NOT_ENABLED           = 3,  /* negotiation is in force, and no application that
                                         opens the kind is enabled here */
    TACIT_NOT_LISTED            = 4,  /* negotiation is in force, some application that opens
                                         the kind is enabled here, and the peer lists none
                                         of these */
    TACIT_CAPABILITY_NOT_OURS   = 5,  /* the kind needs a capability that is not ours; this
                                         and the next also where negotiation is not in
                                         force */
    TACIT_CAPABILITY_NOT_THEIRS = 6   /* that capability is ours and not the peer's, which
                                         has not announced it, or has withdrawn it */
};

/*
 * Kinds of label. In a set of kinds, kind k is bit k. The four with an App can
 * be switched off by the peer with a SAC element of that App. The five with a
 * capability, mLDP's, need it held by both ends.
 */
enum tacit_kind {
    TACIT_KIND_IPV4_PREFIX      = 0,  /* App 1 */
    TACIT_KIND_IPV6_PREFIX      = 1,  /* App 2 */
    TACIT_KIND_P2MP             = 2,  /* capability P2MP */
    TACIT_KIND_MP2MP_UP         = 3,  /* capability MP2MP */
    TACIT_KIND_MP2MP_DOWN       = 4,  /* capability MP2MP */
    TACIT_KIND_HSMP_DOWNSTREAM  = 5,  /* capability HSMP */
    TACIT_KIND_HSMP_UPSTREAM    = 6,  /* capability HSMP */
    TACIT_KIND_PWID             = 7,  /* App 3 */
    TACIT_KIND_GENERALIZED_PWID = 8,  /* App 4 */
    TACIT_KIND_P2MP_PW_UPSTREAM = 9
};

#define TACIT_KIND_SET(kind) (UINT32_C(1) << (kind)) /* the set of this one kind, 0 to 9 */
#define TACIT_ALL_KINDS      UINT32_C(0x03FF)

/*
 * The capabilities that mLDP's kinds need, each as the set of itself: a set of them
 * is these added up. Beside each are the type of its TLV and the kinds that need it.
 *
 * A kind is permitted only if the capability that it needs is held by both ends:
 * where negotiation is in force, where it is not, and where Session Protection opens
 * the kind. Ours are settled at creation and never change. The peer's come with its
 * Initialization, change by its Capability messages, and are forgotten when the
 * session leaves Open. Which applications are common, and which a session uses, does
 * not go by them.
 *
 * In C++ this type is written with enum before it: tacit_capability alone is the call.
 */
enum tacit_capability {
    TACIT_CAPABILITY_P2MP  = 0x01,  /* 0x0508 (RFC 6388); kind 2 */
    TACIT_CAPABILITY_MP2MP = 0x02,  /* 0x0509 (RFC 6388); kinds 3 and 4 */
    TACIT_CAPABILITY_HSMP  = 0x04   /* 0x0902 (RFC 7140); kinds 5 and 6 */
};

#define TACIT_ALL_CAPABILITIES UINT32_C(0x07)

/*
 * Targeted applications by TA-Id, and the kinds that each opens. In a set of
 * applications, TA-Id n is bit n-1. These are no SAC Apps: the two are numbered
 * separately, and 4 is LDPv4 Remote LFA here and Generalized PWid there.
 */
enum tacit_application {
    TACIT_APP_LDPV4_TUNNELING      = 1,   /* kind 0 */
    TACIT_APP_LDPV6_TUNNELING      = 2,   /* kind 1 */
    TACIT_APP_MLDP_TUNNELING       = 3,   /* kinds 2 to 6 */
    TACIT_APP_LDPV4_REMOTE_LFA     = 4,   /* kind 0 */
    TACIT_APP_LDPV6_REMOTE_LFA     = 5,   /* kind 1 */
    TACIT_APP_FEC128_PW            = 6,   /* kind 7 */
    TACIT_APP_FEC129_PW            = 7,   /* kind 8: auto-discovered pseudowires */
    TACIT_APP_SESSION_PROTECTION   = 8,   /* the session's protected kinds */
    TACIT_APP_ICCP                 = 9,   /* none */
    TACIT_APP_P2MP_PW              = 10,  /* kind 9 */
    TACIT_APP_MLDP_NODE_PROTECTION = 11,  /* kinds 2 to 6 */
    TACIT_APP_IPV4_INTRA_AREA      = 12,  /* kind 0 */
    TACIT_APP_IPV6_INTRA_AREA      = 13   /* kind 1 */
};

#define TACIT_APP_SET(ta_id) (UINT32_C(1) << ((ta_id) - 1)) /* the set of this one, 1 to 13 */
#define TACIT_ALL_APPS       UINT32_C(0x1FFF)

/*
 * SAC Apps, and the kind that each controls. In a set of Apps, App n is bit n-1.
 * These are no TA-Ids.
 */
enum tacit_sac_app {
    TACIT_SAC_IPV4_PREFIX = 1,  /* kind 0 */
    TACIT_SAC_IPV6_PREFIX = 2,  /* kind 1 */
    TACIT_SAC_FEC128_PW   = 3,  /* kind 7 */
    TACIT_SAC_FEC129_PW   = 4   /* kind 8 */
};

#define TACIT_SAC_SET(app) (UINT32_C(1) << ((app) - 1)) /* the set of this one, 1 to 4 */
#define TACIT_ALL_SAC      UINT32_C(0x0F)

/* ------------------------------------------------------------------------ */
/* The record                                                                */
/* ------------------------------------------------------------------------ */

/*
 * A record of kind 2: 24 octets, the same on every machine, stored as they are.
 * Numbers of more than one octet have the least significant octet first.
 *
 *    octet   holds
 *    0, 1    22, the number of octets that follow these two
 *    2, 3    2, the kind of record
 *    4       the state (enum tacit_state_number)
 *    5       flags (enum tacit_flag)
 *    6, 7    the applications enabled at this end
 *    8, 9    the applications that the peer lists
 *    10, 11  the protected kinds
 *    12      the Apps that the peer has disabled, App n at bit n-1
 *    13      0
 *    14-17   the recorded Hello number
 *    18-21   the number of the next message that we write
 *    22      our capabilities (enum tacit_capability)
 *    23      the peer's capabilities; 0 unless Open
 *
 * Read it if you must, but write it only through the calls: what you write by
 * hand may be refused as not sound.
 *
 * A record of kind 1 is 22 octets: 20 in octets 0 and 1, 1 in octets 2 and 3, octets 4
 * to 21 as above, and no more. Every call refuses it with 10 but tacit_forward, which
 * makes it one of kind 2: see "Records of kind 1".
 */
enum tacit_flag {
    TACIT_FLAG_INITIATING     = 0x01,  /* this end began the extended discovery */
    TACIT_FLAG_ACTIVE         = 0x02,  /* this end opens the connection */
    TACIT_FLAG_USES_TAC       = 0x04,
    TACIT_FLAG_DROPS          = 0x08,  /* an initiating, active end goes to Gone on a mismatch */
    TACIT_FLAG_IN_FORCE       = 0x10,  /* negotiation limits what may be sent */
    TACIT_FLAG_PEER_DYNAMIC   = 0x20,  /* the peer takes Capability messages */
    TACIT_FLAG_HELLO_RECORDED = 0x40   /* 0x80 is always 0 */
};

/* ------------------------------------------------------------------------ */
/* Answers                                                                   */
/* ------------------------------------------------------------------------ */

/* A part of an area: octets start to start + length - 1. Length 0: absent. */
struct tacit_part {
    uint16_t start;
    uint16_t length;
};

/* What an area holds. */
struct tacit_reading {
    uint8_t refusal;
    uint8_t dynamic;        /* 1: a Dynamic Capability Announcement is there */
    uint8_t capabilities;   /* the set of capabilities that are there, whatever their S */
    uint8_t holding;        /* of these, the set of those with S = 1 */
    struct tacit_part tac;  /* the TAC's value: the octet with S, then elements of 4 octets */
    struct tacit_part sac;  /* the SAC's value: an octet, then elements of 1 octet */
};

/* What an event did. */
struct tacit_answer {
    uint8_t refusal;
    uint8_t outcome;   /* enum tacit_outcome */
    uint16_t lost;     /* kinds permitted before and not after: withdraw their labels */
    uint16_t gained;   /* kinds permitted after and not before: send their labels */
    uint16_t written;  /* octets written to the room from its start: 0, 17, or 14 for a wish */
};

/*
 * What is settled when a session is created. Name the fields that you set, as in
 * {.active = true, .enabled = ..}: the others are then false or 0, and so will be
 * a field that a later version adds.
 */
struct tacit_settings {
    bool initiating;           /* this end began the extended discovery; else it responds */
    bool active;               /* this end opens the connection; else it is passive */
    bool uses_tac;             /* negotiate by TAC; if false a peer's TAC has no effect */
    bool drops;                /* on a mismatch an initiating, active end goes to Gone, not
                                  to Held; of no effect at any other end */
    uint32_t protected_kinds;  /* the set of kinds that Session Protection opens */
    uint32_t enabled;          /* the set of applications that this end supports */
    uint32_t first_number;     /* the number of the first message that we write */
    uint32_t wishes;           /* the set of Apps of which we want no bindings */
    uint32_t capabilities;     /* the set of capabilities that this end has; 0: no label of
                                  kinds 2 to 6 will ever be permitted */
};

/* What a wish did, and the wishes to keep from then on. */
struct tacit_wished {
    struct tacit_answer answer;
    uint32_t wishes;  /* refused, as they were handed in, all 32 bits */
};

/* Octets written by themselves, with no session. */
struct tacit_written {
    uint8_t refusal;
    uint16_t written;  /* octets written to the room from its start */
};

struct tacit_want {
    uint8_t refusal;
    uint8_t wanted;  /* 1: our wishes do not disable this kind */
};

struct tacit_permission {
    uint8_t refusal;
    uint8_t permitted;  /* 1: labels of this kind may be sent */
};

struct tacit_reason {
    uint8_t refusal;
    uint8_t reason;  /* enum tacit_why */
};

struct tacit_kinds {
    uint8_t refusal;
    uint16_t kinds;  /* the set of kinds that may be sent */
};

struct tacit_retry {
    uint8_t refusal;
    uint16_t interval;  /* in seconds: 65,535 in Held, 0 in every other state */
};

/* What a record moved forward, from kind 1 to kind 2, has lost by it. */
struct tacit_moved {
    uint8_t refusal;
    uint16_t lost;  /* kinds permitted before and not after: withdraw their labels */
};

/*
 * One session of a row: what a record holds, under the same names. The struct
 * has padding (an octet after disabled), so compare two field by field and not by
 * memcmp. Fill it by tacit_load and write it only through the calls.
 */
struct tacit_session {
    uint8_t state;      /* enum tacit_state_number */
    uint8_t flags;      /* enum tacit_flag */
    uint8_t disabled;   /* the Apps that the peer has disabled, App n at bit n-1 */
    uint16_t enabled;   /* the applications enabled at this end */
    uint16_t listed;    /* the applications that the peer lists */
    uint16_t protects;  /* the protected kinds */
    uint8_t ours;       /* our capabilities (enum tacit_capability) */
    uint8_t theirs;     /* the peer's capabilities */
    uint32_t hello;     /* the recorded Hello number */
    uint32_t next;      /* the number of the next message that we write */
};

/* A session read from a record. Refused, its state is TACIT_NO_STATE and all else 0. */
struct tacit_loaded {
    uint8_t refusal;
    struct tacit_session session;
};

/*
 * The limit of each application, TA-Id n at of[n-1]: as many Open sessions of a
 * row as may use it before one that needs it is turned away. A number over 64
 * acts as 64. Get one from tacit_no_limits and change it by tacit_set_limit.
 */
struct tacit_limits {
    uint8_t of[TACIT_APPLICATIONS];
};

/* Limits with one of them set. Refused, they are as they were handed in. */
struct tacit_limited {
    uint8_t refusal;
    struct tacit_limits limits;
};

/* How many sessions of a row use an application: 0 to 64. */
struct tacit_count {
    uint8_t refusal;
    uint8_t count;
};

/*
 * How many sessions of a row permit each kind, kind k at of[k]. It belongs to its
 * row: all 0 for a row of fresh sessions, from tacit_recount for a row that was
 * loaded, and then kept up to date by every event.
 */
struct tacit_totals {
    uint8_t of[TACIT_KINDS];
};

/* How many sessions of a row permit a kind. */
struct tacit_total {
    uint8_t refusal;
    uint8_t total;
};

/* What an event of a row did, and its totals after it: refused, as they were handed in. */
struct tacit_row_answer {
    struct tacit_answer answer;
    struct tacit_totals totals;
};

/* The totals of a row, counted anew. Refused, they are 0. */
struct tacit_row_totals {
    uint8_t refusal;
    struct tacit_totals totals;
};

/* An event as numbers, for tacit_row_event; the six calls below it fill this in. */
struct tacit_event {
    uint32_t which;   /* enum tacit_event_number */
    uint32_t ta_id;   /* local change: which application */
    uint32_t on;      /* local change: 0 for off, any other number for on */
    uint32_t number;  /* Hello: its configuration sequence number */
};

enum tacit_event_number {
    TACIT_EVENT_INITIALIZATION = 0,
    TACIT_EVENT_CAPABILITY     = 1,
    TACIT_EVENT_LOCAL_CHANGE   = 2,
    TACIT_EVENT_MISMATCH       = 3,
    TACIT_EVENT_HELLO          = 4,
    TACIT_EVENT_CLOSED         = 5
};

TACIT_ASSERT(sizeof(bool) == 1);
TACIT_ASSERT(sizeof(struct tacit_part) == 4);
TACIT_ASSERT(offsetof(struct tacit_part, start) == 0);
TACIT_ASSERT(offsetof(struct tacit_part, length) == 2);
TACIT_ASSERT(sizeof(struct tacit_reading) == 12);
TACIT_ASSERT(offsetof(struct tacit_reading, refusal) == 0);
TACIT_ASSERT(offsetof(struct tacit_reading, dynamic) == 1);
TACIT_ASSERT(offsetof(struct tacit_reading, capabilities) == 2);
TACIT_ASSERT(offsetof(struct tacit_reading, holding) == 3);
TACIT_ASSERT(offsetof(struct tacit_reading, tac) == 4);
TACIT_ASSERT(offsetof(struct tacit_reading, sac) == 8);
TACIT_ASSERT(sizeof(struct tacit_answer) == 8);
TACIT_ASSERT(offsetof(struct tacit_answer, refusal) == 0);
TACIT_ASSERT(offsetof(struct tacit_answer, outcome) == 1);
TACIT_ASSERT(offsetof(struct tacit_answer, lost) == 2);
TACIT_ASSERT(offsetof(struct tacit_answer, gained) == 4);
TACIT_ASSERT(offsetof(struct tacit_answer, written) == 6);
TACIT_ASSERT(sizeof(struct tacit_settings) == 24);
TACIT_ASSERT(offsetof(struct tacit_settings, initiating) == 0);
TACIT_ASSERT(offsetof(struct tacit_settings, active) == 1);
TACIT_ASSERT(offsetof(struct tacit_settings, uses_tac) == 2);
TACIT_ASSERT(offsetof(struct tacit_settings, drops) == 3);
TACIT_ASSERT(offsetof(struct tacit_settings, protected_kinds) == 4);
TACIT_ASSERT(offsetof(struct tacit_settings, enabled) == 8);
TACIT_ASSERT(offsetof(struct tacit_settings, first_number) == 12);
TACIT_ASSERT(offsetof(struct tacit_settings, wishes) == 16);
TACIT_ASSERT(offsetof(struct tacit_settings, capabilities) == 20);
TACIT_ASSERT(sizeof(struct tacit_wished) == 12);
TACIT_ASSERT(offsetof(struct tacit_wished, answer) == 0);
TACIT_ASSERT(offsetof(struct tacit_wished, wishes) == 8);
TACIT_ASSERT(sizeof(struct tacit_written) == 4);
TACIT_ASSERT(offsetof(struct tacit_written, refusal) == 0);
TACIT_ASSERT(offsetof(struct tacit_written, written) == 2);
TACIT_ASSERT(sizeof(struct tacit_want) == 2);
TACIT_ASSERT(offsetof(struct tacit_want, refusal) == 0);
TACIT_ASSERT(offsetof(struct tacit_want, wanted) == 1);
TACIT_ASSERT(sizeof(struct tacit_permission) == 2);
TACIT_ASSERT(offsetof(struct tacit_permission, refusal) == 0);
TACIT_ASSERT(offsetof(struct tacit_permission, permitted) == 1);
TACIT_ASSERT(sizeof(struct tacit_reason) == 2);
TACIT_ASSERT(offsetof(struct tacit_reason, refusal) == 0);
TACIT_ASSERT(offsetof(struct tacit_reason, reason) == 1);
TACIT_ASSERT(sizeof(struct tacit_kinds) == 4);
TACIT_ASSERT(offsetof(struct tacit_kinds, refusal) == 0);
TACIT_ASSERT(offsetof(struct tacit_kinds, kinds) == 2);
TACIT_ASSERT(sizeof(struct tacit_retry) == 4);
TACIT_ASSERT(offsetof(struct tacit_retry, refusal) == 0);
TACIT_ASSERT(offsetof(struct tacit_retry, interval) == 2);
TACIT_ASSERT(sizeof(struct tacit_moved) == 4);
TACIT_ASSERT(offsetof(struct tacit_moved, refusal) == 0);
TACIT_ASSERT(offsetof(struct tacit_moved, lost) == 2);
TACIT_ASSERT(sizeof(struct tacit_session) == 20);
TACIT_ASSERT(offsetof(struct tacit_session, state) == 0);
TACIT_ASSERT(offsetof(struct tacit_session, flags) == 1);
TACIT_ASSERT(offsetof(struct tacit_session, disabled) == 2);
TACIT_ASSERT(offsetof(struct tacit_session, enabled) == 4);
TACIT_ASSERT(offsetof(struct tacit_session, listed) == 6);
TACIT_ASSERT(offsetof(struct tacit_session, protects) == 8);
TACIT_ASSERT(offsetof(struct tacit_session, ours) == 10);
TACIT_ASSERT(offsetof(struct tacit_session, theirs) == 11);
TACIT_ASSERT(offsetof(struct tacit_session, hello) == 12);
TACIT_ASSERT(offsetof(struct tacit_session, next) == 16);
TACIT_ASSERT(sizeof(struct tacit_loaded) == 24);
TACIT_ASSERT(offsetof(struct tacit_loaded, refusal) == 0);
TACIT_ASSERT(offsetof(struct tacit_loaded, session) == 4);
TACIT_ASSERT(sizeof(struct tacit_limits) == 13);
TACIT_ASSERT(offsetof(struct tacit_limits, of) == 0);
TACIT_ASSERT(sizeof(struct tacit_limited) == 14);
TACIT_ASSERT(offsetof(struct tacit_limited, refusal) == 0);
TACIT_ASSERT(offsetof(struct tacit_limited, limits) == 1);
TACIT_ASSERT(sizeof(struct tacit_count) == 2);
TACIT_ASSERT(offsetof(struct tacit_count, refusal) == 0);
TACIT_ASSERT(offsetof(struct tacit_count, count) == 1);
TACIT_ASSERT(sizeof(struct tacit_totals) == 10);
TACIT_ASSERT(offsetof(struct tacit_totals, of) == 0);
TACIT_ASSERT(sizeof(struct tacit_total) == 2);
TACIT_ASSERT(offsetof(struct tacit_total, refusal) == 0);
TACIT_ASSERT(offsetof(struct tacit_total, total) == 1);
TACIT_ASSERT(sizeof(struct tacit_row_answer) == 18);
TACIT_ASSERT(offsetof(struct tacit_row_answer, answer) == 0);
TACIT_ASSERT(offsetof(struct tacit_row_answer, totals) == 8);
TACIT_ASSERT(sizeof(struct tacit_row_totals) == 11);
TACIT_ASSERT(offsetof(struct tacit_row_totals, refusal) == 0);
TACIT_ASSERT(offsetof(struct tacit_row_totals, totals) == 1);
TACIT_ASSERT(sizeof(struct tacit_event) == 16);
TACIT_ASSERT(offsetof(struct tacit_event, which) == 0);
TACIT_ASSERT(offsetof(struct tacit_event, ta_id) == 4);
TACIT_ASSERT(offsetof(struct tacit_event, on) == 8);
TACIT_ASSERT(offsetof(struct tacit_event, number) == 12);

/* ------------------------------------------------------------------------ */
/* Calls                                                                     */
/* ------------------------------------------------------------------------ */

/*
 * Reads an area: the TLVs of an Initialization message, Common Session
 * Parameters included or not, or those of a Capability message behind its
 * message number. The events below read the area themselves; this call is for a
 * log, or for a daemon that looks into the lists on its own.
 *
 * Six types are read: TAC 0x050F, SAC 0x050D, Dynamic Capability Announcement
 * 0x0506, and the capabilities P2MP 0x0508, MP2MP 0x0509 and HSMP 0x0902, whatever
 * their U and F. The value of a capability is one octet with S as its top bit; its
 * other bits are not read. Other types are passed over if U is 1 or if they lie in
 * 0x0500 to 0x05FF, and may repeat.
 *
 * Refusals: 1; then TLV by TLV from the left, for each 2, 4, 5, 3.
 */
struct tacit_reading tacit_read(const uint8_t *area, size_t area_len);

/*
 * Makes a fresh session: Ready, no Hello recorded, nothing known of the peer.
 * record_len must be 24; whatever stood there is overwritten.
 *
 * The wishes are tested here and not stored: keep them beside the record, and hand
 * them to tacit_wish, tacit_wish_sac and tacit_wanted.
 *
 * Put into capabilities those that this end really has. They are stored and never
 * change. The peer learns them from you, for the library does not write them yet: put
 * the TLV of each, 85 08 00 01 80 for P2MP, 85 09 00 01 80 for MP2MP and 89 02 00 01
 * 80 for HSMP, into every Initialization that you send, and no TLV of any other.
 *
 * Returns the refusal: 10; 6 for protected kinds, enabled applications, wishes or
 * capabilities with a bit that means nothing. Refused, no record is written.
 */
uint8_t tacit_create(uint8_t *record, size_t record_len, struct tacit_settings settings);

/*
 * The peer's Initialization has arrived. For Ready.
 *
 * Negotiation is in force if the session uses TAC and the area holds one, with
 * elements or without. The peer then lists every known TA-Id in it, in any
 * order, whatever S and E are. A SAC element with D = 1 disables its kind; with
 * D = 0 it does nothing. A Dynamic Capability Announcement says that the peer takes
 * Capability messages. The peer holds exactly those of the three capabilities that
 * are there, whatever their S, and whether or not the session uses TAC.
 *
 * DONE: the session is Open. Without negotiation in force that is as RFC 5036
 * has it, and every kind is permitted that SAC has not disabled, if both ends hold
 * the capability that it needs: kinds 0, 1, 7, 8 and 9 need none.
 *
 * MISMATCH: negotiation is in force and no application is both enabled here and
 * listed by the peer. Send the Notification and close the connection; then go
 * by the state. Held: open no connection until it is Ready again, by a change at
 * this end or a higher Hello number; waiting does not end it. Gone: tear down the
 * adjacency. Ready, at a passive end: wait for the peer.
 *
 * Refusals: 10, 7, 1; then TLV by TLV from the left, for each 2, 4, 5, 3.
 * One bad TLV refuses the message; nothing of it is applied.
 */
struct tacit_answer tacit_initialization(uint8_t *record, size_t record_len, const uint8_t *area,
                                         size_t area_len);

/*
 * A Capability message of the peer has arrived. For Open.
 *
 * If the session uses TAC: a TAC with S = 1 adds applications to the peer's list
 * (E = 1) and removes them (E = 0), and of two elements with one TA-Id the first
 * counts. If negotiation was not in force it comes into force, with a list that
 * starts empty. A TAC with S = 0 empties the list and puts negotiation out of
 * force. SAC elements apply in their order: D = 1 disables a kind, D = 0 enables
 * it. A Dynamic Capability Announcement has no effect. A capability with S = 1 is
 * held by the peer from then on, one with S = 0 is withdrawn, and one that is not
 * there stays as it was; so also where the session does not use TAC.
 *
 * DONE: still Open; see lost and gained. MISMATCH: no common application is
 * left; do as at tacit_initialization.
 *
 * Refusals: as at tacit_initialization.
 */
struct tacit_answer tacit_capability(uint8_t *record, size_t record_len, const uint8_t *area,
                                     size_t area_len);

/*
 * The operator switches an application on or off. For every state.
 *
 * UNCHANGED: it was so already. DONE: it is set, and Held has become Ready; Gone
 * stays Gone. In Open with TAC used a Capability message of 17 octets stands at
 * the start of the room: send it. It is a whole LDP message, without PDU header;
 * octets of room behind it are as they were. MISMATCH: it is set, nothing is
 * written, and no common application is left; do as at tacit_initialization.
 *
 * Where nothing is written the room may be NULL with length 0. In Open with TAC
 * used 9 and 8 are asked even if a mismatch would follow.
 *
 * Refusals: 10, 6, then UNCHANGED, then 9, 8.
 */
struct tacit_answer tacit_local_change(uint8_t *record, size_t record_len, uint32_t ta_id, bool on,
                                       uint8_t *room, size_t room_len);

/*
 * The peer's mismatch Notification has arrived. For Ready and Open. The outcome
 * is MISMATCH, and the state is the same as if this end had found it.
 *
 * Refusals: 10, 7.
 */
struct tacit_answer tacit_mismatch(uint8_t *record, size_t record_len);

/*
 * A Hello with this configuration sequence number has arrived. For every state.
 *
 * DONE: the number is recorded, being the first, or higher than the one that was
 * recorded. If it is higher, Held becomes Ready; Gone becomes Ready in any case.
 * UNCHANGED: it is equal or lower, and nothing happens.
 *
 * Refusals: 10.
 */
struct tacit_answer tacit_hello(uint8_t *record, size_t record_len, uint32_t number);

/*
 * The connection has closed. For Open, which becomes Ready. After a mismatch
 * the session has left Open already and needs no such call.
 *
 * Refusals: 10, 7.
 */
struct tacit_answer tacit_closed(uint8_t *record, size_t record_len);

/*
 * May labels of this kind be sent now? Only in Open; not a kind that the peer
 * has disabled; with negotiation in force, only a kind that some application opens
 * which is both enabled here and listed by the peer; and a kind that needs a
 * capability only where both ends hold it.
 *
 * Refusals: 10, 6. Refused, nothing is permitted.
 */
struct tacit_permission tacit_permitted(const uint8_t *record, size_t record_len, uint32_t kind);

/* All kinds at once: the set of those that tacit_permitted permits. Refusals: 10. */
struct tacit_kinds tacit_permitted_kinds(const uint8_t *record, size_t record_len);

/*
 * Why may labels of this kind not be sent now? PERMITTED exactly where
 * tacit_permitted permits the kind; else the first reason that is so, for a log or
 * an operator who asks. They are asked in the order of their numbers: not Open,
 * disabled by the peer, not enabled, not listed, and last the capability, ours before
 * the peer's. So NOT_THEIRS says that this capability alone is wanting.
 *
 * Refusals: 10, 6. Refused, the reason says nothing: look at the refusal first.
 */
struct tacit_reason tacit_why_not(const uint8_t *record, size_t record_len, uint32_t kind);

/* ------------------------------------------------------------------------ */
/* Our wishes                                                                */
/* ------------------------------------------------------------------------ */

/*
 * Our own disinterest (RFC 7473): the kinds of which the peer is to send us no
 * bindings. Our wishes are a set of Apps, 1 where the App's kind is to be disabled.
 * You keep them beside the record, as you keep an address: they are in no record,
 * no event touches them, and leaving Open does not clear them. They say what the
 * peer may send and nothing of what we may: no call that is not handed the wishes
 * asks for them.
 *
 * The peer learns them twice: with our Initialization, by the SAC that
 * tacit_wish_sac writes, and while the session is Open by the message that
 * tacit_wish writes for each change.
 */

/*
 * The operator wants bindings of the App's kind no more (disable), or wants them
 * again. For Open, but that what is so already is UNCHANGED in every state.
 *
 * DONE: a Capability message of 14 octets stands at the start of the room: send
 * it, and keep the wishes of the answer. It takes the next message number;
 * nothing else of the session changes, and no kind is lost or gained.
 *
 * Not Open (7), or the peer takes no Capability messages (9): there is no message
 * that could say it now. docs/DAEMON.md, "Our own disinterest", says what to do.
 *
 * Refusals: 10, also for wishes with a bit that is no App's; 15, then UNCHANGED, then
 * 7, 9, 8. Refused, the wishes come back as they were handed in.
 */
struct tacit_wished tacit_wish(uint8_t *record, size_t record_len, uint32_t wishes, uint32_t app,
                               bool disable, uint8_t *room, size_t room_len);

/*
 * Writes the SAC for an Initialization: a whole TLV of 6 to 9 octets, with an
 * element for each App that we wish disabled, in rising order. Put it among the
 * optional parameters. Without such an App there is nothing to put: 0 octets are
 * written, and any room will do, NULL with length 0 included.
 *
 * Refusals: 10 for wishes with a bit that is no App's; 8.
 */
struct tacit_written tacit_wish_sac(uint32_t wishes, uint8_t *room, size_t room_len);

/*
 * A binding of this kind has arrived: is it wanted? Exactly when our wishes do not
 * disable the kind. A kind that no App controls is always wanted.
 *
 * Refusals: 10 for wishes with a bit that is no App's; 6. Refused, it is not wanted.
 */
struct tacit_want tacit_wanted(uint32_t wishes, uint32_t kind);

/* ------------------------------------------------------------------------ */
/* Waiting, and a look at the record                                         */
/* ------------------------------------------------------------------------ */

/*
 * The session setup retry interval of RFC 8223, for a log or for management. RFC
 * 8223 names no unit; read it in seconds, as RFC 5036 counts its delays.
 *
 * 65,535: make no attempt. Held does not end when that time has passed. 0: this
 * library asks for no wait; the backoff of RFC 5036 is the daemon's and stays.
 *
 * Refusals: 10.
 */
struct tacit_retry tacit_retry_interval(const uint8_t *record, size_t record_len);

/*
 * Is this a record that a session can have? It has 24 octets; octets 0 to 3 and
 * 13 are as the table says, the state is 0 to 3, and no bit is 1 that has no
 * meaning, in the two sets of capabilities as elsewhere. Besides, what it says must
 * fit together:
 *
 * - if negotiation is in force, the session is Open and uses TAC, and the sets of
 *   enabled and listed applications meet; if it is not, nothing is listed;
 * - if the session is not Open, no App is disabled, the peer is not dynamic and holds
 *   no capability;
 * - if no Hello is recorded, its number is 0;
 * - a session in Held is active, and not one that goes to Gone instead (one that
 *   initiates and drops);
 * - a session in Gone is active, initiates and drops, and has no Hello recorded.
 *
 * Every record that tacit_create, tacit_forward or an event leaves, from a sound one,
 * is sound.
 */
bool tacit_sound(const uint8_t *record, size_t record_len);

/* ------------------------------------------------------------------------ */
/* Records of kind 1                                                         */
/* ------------------------------------------------------------------------ */

/*
 * Up to version 3 a record was of kind 1, and had no place for capabilities. It is
 * sound by all that tacit_sound asks of octets 4 to 21.
 *
 * The upgrade. Before any other call for a session, a daemon that finds records of kind
 * 1 in its store does this with each: it reads the 22 octets, moves them into 24 by
 * tacit_forward, withdraws the labels of the kinds lost, and stores the 24 octets in
 * their place. Since it stores last, a record whose labels are not yet withdrawn is
 * found as kind 1 once more after a crash. A record that is refused is damaged: close
 * its connection, if there is one, and create the session anew. Rows are loaded from the
 * records moved, and their totals counted then.
 *
 * A session moved is as it was, but that neither end holds a capability: one that was
 * stored Open stays Open and permits none of kinds 2 to 6 any more. The peer's
 * capabilities are known again once a Capability message of the peer announces them,
 * or the session opens anew. Ours are fixed at creation: for a session that is to
 * permit these kinds again, make a new record by tacit_create, with settings that name
 * its capabilities, and open anew.
 *
 * Version 4.0.0 had 24 octets that began as kind 1 does, with 20 and 1. To take over
 * such a record with its capabilities, write 22 into octet 0 and 2 into octet 2, and
 * ask tacit_sound: the rest of it is as in kind 2, and nothing is lost. Its first 22
 * octets are a record of kind 1 as well; moved forward, they give the session without
 * its capabilities.
 *
 * The way back. A daemon that must return to a version before 4 moves each record into
 * 22 octets by tacit_back, and stores those. Refused with 13, the session holds a
 * capability that the older version cannot know of. The peer's are forgotten when the
 * session leaves Open: close it, and move it then. With one of ours there is no way
 * back for the record; create the session anew under the older version. Mind that
 * versions before 4 ask for no capability: an Open session moved back permits there,
 * besides what it permits here, the kinds that tacit_forward would report as lost. A
 * return to 4.0.0 needs no move: write 20 into octet 0 and 1 into octet 2.
 */

/*
 * Moves a record of kind 1 forward: the 24 octets of kind2 are then the same session
 * as a record of kind 2, with no capability at either end.
 *
 * lost: for an Open session, those of kinds 2 to 6 that versions before 4 permitted, for
 * which no capability was needed: all five where negotiation is not in force, else those
 * that some application opens which is both enabled here and listed by the peer. 0 in
 * every other state. It is the same for a record that tacit_back made, though its session
 * permitted none of these kinds here.
 *
 * Refusals: 10, where kind1 is not a sound record of kind 1, exactly 22 octets long, or
 * kind2_len is not 24. Refused, the room is as it was.
 */
struct tacit_moved tacit_forward(const uint8_t *kind1, size_t kind1_len, uint8_t *kind2,
                                 size_t kind2_len);

/*
 * Moves a record of kind 2 back: the 22 octets of kind1 are then the same session as a
 * record of kind 1. Moved forward again it gives the record that it was.
 *
 * Returns the refusal: 10, where kind2 is not sound (see tacit_sound) or kind1_len is
 * not 22; then 13, where octet 22 or 23 is not 0. Refused, the room is as it was.
 */
uint8_t tacit_back(const uint8_t *kind2, size_t kind2_len, uint8_t *kind1, size_t kind1_len);

/* ------------------------------------------------------------------------ */
/* Rows of sessions                                                          */
/* ------------------------------------------------------------------------ */

/*
 * A row is an array of 1 to 64 sessions that you own. An event happens to one of
 * them, number at, counted from 0, and changes no other; what it does is what
 * the call of the same name does to a record, but that an Initialization is held
 * to the limits.
 *
 * A session uses an application if it is Open, negotiation is in force, and the
 * application is both enabled here and listed by the peer, whatever kinds it may
 * send. Limits are read only when an Initialization arrives: setting one turns no
 * open session out.
 *
 * With the row you keep its totals: how many of its sessions permit each kind, so
 * that tacit_kind_total answers before a batch of labels without looking at the
 * row. A row of fresh sessions (tacit_create, tacit_load) has totals of 0, and a
 * fresh session put into a row changes none. Every event takes the totals and
 * brings them up to date from the kinds that it lost and gained, so they stay
 * equal to what a walk over the row counts. Where you change the row yourself
 * otherwise, as by loading the records of sessions that were Open, or by taking
 * an Open session out, count them anew by tacit_recount.
 */

/* The session of a record. Refusals: 10. */
struct tacit_loaded tacit_load(const uint8_t *record, size_t record_len);

/* Stores a sound session in a record of 24 octets. Returns the refusal: 10. */
uint8_t tacit_store(struct tacit_session session, uint8_t *record, size_t record_len);

/* 64 for every application: no row has more sessions, so none is turned away. */
struct tacit_limits tacit_no_limits(void);

/* The limits with the one of this application set, 0 to 64. Refusals: 6, 12. */
struct tacit_limited tacit_set_limit(struct tacit_limits limits, uint32_t ta_id, uint32_t limit);

/* How many sessions of the row use this application. Refusals: 11, 10, 6. */
struct tacit_count tacit_row_count(const struct tacit_session *row, size_t row_len, uint32_t ta_id);

/*
 * How many sessions of the row that these totals belong to permit this kind: how
 * many may be sent a label of it. The row is not looked at, and the total is told
 * as it stands, whatever number it is. Refusals: 6.
 */
struct tacit_total tacit_kind_total(struct tacit_totals totals, uint32_t kind);

/*
 * The totals counted anew by a walk over the row, for a row loaded from records.
 * Refusals: 11, 10.
 */
struct tacit_row_totals tacit_recount(const struct tacit_session *row, size_t row_len);

/*
 * One event of one session of the row, for any of the six; a number that is no
 * event's is refused with 7. Limits are read, and the area, only where the event
 * is one that does; the room is written only by a local change. The totals of the
 * kinds lost are one lower after it, those of the kinds gained one higher.
 *
 * Refusals: 11; 10 for any session of the row; then those of the event, in its
 * order; last 16, the total of a kind that is lost or gained would come to stand
 * outside 0 to 64. A total of any other kind is not looked at. 16 never happens
 * to totals that are those of the row; where it does, tacit_recount mends them.
 * Refused, every field of the row, every octet of the room and every total is as
 * it was.
 */
struct tacit_row_answer tacit_row_event(struct tacit_session *row, size_t row_len, size_t at,
                                        struct tacit_event event, struct tacit_limits limits,
                                        struct tacit_totals totals, const uint8_t *area,
                                        size_t area_len, uint8_t *room, size_t room_len);

/* tacit_row_event, with the totals kept where they stand. */
static inline struct tacit_answer tacit_row_event_kept(struct tacit_session *row, size_t row_len,
                                                       size_t at, struct tacit_event event,
                                                       struct tacit_limits limits,
                                                       struct tacit_totals *totals,
                                                       const uint8_t *area, size_t area_len,
                                                       uint8_t *room, size_t room_len)
{
    struct tacit_row_answer after = tacit_row_event(row, row_len, at, event, limits, *totals, area,
                                                    area_len, room, room_len);
    *totals = after.totals;
    return after.answer;
}

/*
 * tacit_initialization under limits. Where negotiation is in force and there are
 * common applications, the session opens only if fewer sessions of the row use
 * one of them, at least, than its limit; it then uses all of them, so that a
 * count may pass its limit.
 *
 * AT_LIMIT: there is no such application. Nothing is lost, gained or written; do
 * as after a mismatch, and go by the state.
 *
 * This call and the five below it keep *totals, which is not NULL, up to date.
 */
static inline struct tacit_answer tacit_row_initialization(struct tacit_session *row,
                                                           size_t row_len, size_t at,
                                                           struct tacit_limits limits,
                                                           struct tacit_totals *totals,
                                                           const uint8_t *area, size_t area_len)
{
    struct tacit_event event = {TACIT_EVENT_INITIALIZATION, 0, 0, 0};
    return tacit_row_event_kept(row, row_len, at, event, limits, totals, area, area_len, NULL, 0);
}

/* tacit_capability for a session of the row. */
static inline struct tacit_answer tacit_row_capability(struct tacit_session *row, size_t row_len,
                                                       size_t at, struct tacit_totals *totals,
                                                       const uint8_t *area, size_t area_len)
{
    struct tacit_event event = {TACIT_EVENT_CAPABILITY, 0, 0, 0};
    return tacit_row_event_kept(row, row_len, at, event, tacit_no_limits(), totals, area, area_len,
                                NULL, 0);
}

/* tacit_local_change for a session of the row. */
static inline struct tacit_answer tacit_row_local_change(struct tacit_session *row, size_t row_len,
                                                         size_t at, struct tacit_totals *totals,
                                                         uint32_t ta_id, bool on, uint8_t *room,
                                                         size_t room_len)
{
    struct tacit_event event = {TACIT_EVENT_LOCAL_CHANGE, ta_id, on, 0};
    return tacit_row_event_kept(row, row_len, at, event, tacit_no_limits(), totals, NULL, 0, room,
                                room_len);
}

/* tacit_mismatch for a session of the row. */
static inline struct tacit_answer tacit_row_mismatch(struct tacit_session *row, size_t row_len,
                                                     size_t at, struct tacit_totals *totals)
{
    struct tacit_event event = {TACIT_EVENT_MISMATCH, 0, 0, 0};
    return tacit_row_event_kept(row, row_len, at, event, tacit_no_limits(), totals, NULL, 0, NULL,
                                0);
}

/* tacit_hello for a session of the row. */
static inline struct tacit_answer tacit_row_hello(struct tacit_session *row, size_t row_len,
                                                  size_t at, struct tacit_totals *totals,
                                                  uint32_t number)
{
    struct tacit_event event = {TACIT_EVENT_HELLO, 0, 0, number};
    return tacit_row_event_kept(row, row_len, at, event, tacit_no_limits(), totals, NULL, 0, NULL,
                                0);
}

/* tacit_closed for a session of the row. */
static inline struct tacit_answer tacit_row_closed(struct tacit_session *row, size_t row_len,
                                                   size_t at, struct tacit_totals *totals)
{
    struct tacit_event event = {TACIT_EVENT_CLOSED, 0, 0, 0};
    return tacit_row_event_kept(row, row_len, at, event, tacit_no_limits(), totals, NULL, 0, NULL,
                                0);
}

/* tacit_permitted_kinds of a session by itself. Refusals: 10. */
static inline struct tacit_kinds tacit_session_kinds(struct tacit_session session)
{
    uint8_t record[TACIT_RECORD_LENGTH] = {0};
    (void)tacit_store(session, record, sizeof record);
    return tacit_permitted_kinds(record, sizeof record);
}

/* tacit_retry_interval of a session by itself. Refusals: 10. */
static inline struct tacit_retry tacit_session_retry(struct tacit_session session)
{
    uint8_t record[TACIT_RECORD_LENGTH] = {0};
    (void)tacit_store(session, record, sizeof record);
    return tacit_retry_interval(record, sizeof record);
}

/*
 * tacit_wish for a session of the row. No other session is looked at, and the
 * totals of the row stay right, for no kind is lost or gained. Refused, every field
 * of the session is as it was.
 */
static inline struct tacit_wished tacit_session_wish(struct tacit_session *session,
                                                     uint32_t wishes, uint32_t app, bool disable,
                                                     uint8_t *room, size_t room_len)
{
    uint8_t record[TACIT_RECORD_LENGTH] = {0};
    (void)tacit_store(*session, record, sizeof record);
    struct tacit_wished wished =
        tacit_wish(record, sizeof record, wishes, app, disable, room, room_len);
    if (wished.answer.refusal == TACIT_NOT_REFUSED)
        *session = tacit_load(record, sizeof record).session;
    return wished;
}

/* ------------------------------------------------------------------------ */
/* Words for a log                                                           */
/* ------------------------------------------------------------------------ */

/*
 * Each takes any number and gives a text that is never NULL and need not be
 * freed: "unknown" for a number that means nothing.
 */

static inline const char *tacit_refusal_text(uint32_t refusal)
{
    switch (refusal) {
    case TACIT_NOT_REFUSED: return "not refused";
    case TACIT_REFUSED_AREA: return "area over 4,096 octets";
    case TACIT_REFUSED_CUT_SHORT: return "TLV cut short";
    case TACIT_REFUSED_LENGTH: return "TLV of a wrong length";
    case TACIT_REFUSED_TYPE: return "type not known and not to be passed over";
    case TACIT_REFUSED_REPEATED: return "TLV repeated";
    case TACIT_REFUSED_NUMBER: return "application, kind or set out of range";
    case TACIT_REFUSED_STATE: return "event not for this state";
    case TACIT_REFUSED_ROOM: return "too little room for what is to be written";
    case TACIT_REFUSED_NOT_DYNAMIC: return "peer takes no Capability messages";
    case TACIT_REFUSED_NOT_SOUND:
        return "record, session or wishes not sound, or record not of its size";
    case TACIT_REFUSED_ROW: return "row empty or over 64 sessions, or row number outside it";
    case TACIT_REFUSED_LIMIT: return "limit over 64";
    case TACIT_REFUSED_CAPABILITIES:
        return "capability held, and a record of kind 1 has no place for it";
    case TACIT_REFUSED_APP: return "no SAC App";
    case TACIT_REFUSED_TOTAL: return "total outside 0 to 64: the totals are not those of the row";
    default: return "unknown";
    }
}

static inline const char *tacit_outcome_text(uint32_t outcome)
{
    switch (outcome) {
    case TACIT_DONE: return "done";
    case TACIT_UNCHANGED: return "unchanged";
    case TACIT_MISMATCH: return "mismatch";
    case TACIT_AT_LIMIT: return "at the limit";
    default: return "unknown";
    }
}

static inline const char *tacit_state_text(uint32_t state)
{
    switch (state) {
    case TACIT_READY: return "Ready";
    case TACIT_OPEN: return "Open";
    case TACIT_HELD: return "Held";
    case TACIT_GONE: return "Gone";
    default: return "unknown";
    }
}

static inline const char *tacit_why_text(uint32_t reason)
{
    switch (reason) {
    case TACIT_PERMITTED: return "permitted";
    case TACIT_NOT_OPEN: return "session not Open";
    case TACIT_DISABLED_BY_PEER: return "disabled by the peer";
    case TACIT_NOT_ENABLED: return "no application that opens it is enabled here";
    case TACIT_NOT_LISTED: return "no enabled application that opens it is listed by the peer";
    case TACIT_CAPABILITY_NOT_OURS: return "the capability that it needs is not held here";
    case TACIT_CAPABILITY_NOT_THEIRS: return "the capability that it needs is not held by the peer";
    default: return "unknown";
    }
}

static inline const char *tacit_kind_text(uint32_t kind)
{
    switch (kind) {
    case TACIT_KIND_IPV4_PREFIX: return "IPv4 prefix";
    case TACIT_KIND_IPV6_PREFIX: return "IPv6 prefix";
    case TACIT_KIND_P2MP: return "P2MP";
    case TACIT_KIND_MP2MP_UP: return "MP2MP-up";
    case TACIT_KIND_MP2MP_DOWN: return "MP2MP-down";
    case TACIT_KIND_HSMP_DOWNSTREAM: return "HSMP-downstream";
    case TACIT_KIND_HSMP_UPSTREAM: return "HSMP-upstream";
    case TACIT_KIND_PWID: return "PWid";
    case TACIT_KIND_GENERALIZED_PWID: return "Generalized PWid";
    case TACIT_KIND_P2MP_PW_UPSTREAM: return "P2MP PW Upstream";
    default: return "unknown";
    }
}

static inline const char *tacit_capability_text(uint32_t capability)
{
    switch (capability) {
    case TACIT_CAPABILITY_P2MP: return "P2MP";
    case TACIT_CAPABILITY_MP2MP: return "MP2MP";
    case TACIT_CAPABILITY_HSMP: return "HSMP";
    default: return "unknown";
    }
}

static inline const char *tacit_application_text(uint32_t ta_id)
{
    switch (ta_id) {
    case TACIT_APP_LDPV4_TUNNELING: return "LDPv4 Tunneling";
    case TACIT_APP_LDPV6_TUNNELING: return "LDPv6 Tunneling";
    case TACIT_APP_MLDP_TUNNELING: return "mLDP Tunneling";
    case TACIT_APP_LDPV4_REMOTE_LFA: return "LDPv4 Remote LFA";
    case TACIT_APP_LDPV6_REMOTE_LFA: return "LDPv6 Remote LFA";
    case TACIT_APP_FEC128_PW: return "FEC 128 PW";
    case TACIT_APP_FEC129_PW: return "FEC 129 PW";
    case TACIT_APP_SESSION_PROTECTION: return "Session Protection";
    case TACIT_APP_ICCP: return "ICCP";
    case TACIT_APP_P2MP_PW: return "P2MP PW";
    case TACIT_APP_MLDP_NODE_PROTECTION: return "mLDP Node Protection";
    case TACIT_APP_IPV4_INTRA_AREA: return "IPv4 intra-area FECs";
    case TACIT_APP_IPV6_INTRA_AREA: return "IPv6 intra-area FECs";
    default: return "unknown";
    }
}

static inline const char *tacit_sac_app_text(uint32_t app)
{
    switch (app) {
    case TACIT_SAC_IPV4_PREFIX: return "IPv4 prefixes";
    case TACIT_SAC_IPV6_PREFIX: return "IPv6 prefixes";
    case TACIT_SAC_FEC128_PW: return "FEC 128 pseudowires";
    case TACIT_SAC_FEC129_PW: return "FEC 129 pseudowires";
    default: return "unknown";
    }
}

/* For tacit_answer_text: a line of so many whole characters, of which len - 1 are written. */
struct tacit_line {
    char *text;
    size_t len;
    size_t whole;
};

static inline struct tacit_line tacit_line_with(struct tacit_line line, const char *words)
{
    for (; *words != 0; words++) {
        if (line.whole + 1 < line.len)
            line.text[line.whole] = *words;
        line.whole++;
    }
    return line;
}

static inline struct tacit_line tacit_line_with_number(struct tacit_line line, uint16_t number)
{
    char digits[6] = {0}; /* five at most, and a 0 */
    size_t first = 5;
    do {
        digits[--first] = (char)('0' + number % 10);
        number = (uint16_t)(number / 10);
    } while (number != 0);
    return tacit_line_with(line, digits + first);
}

/* The text of a number, with the number itself where it means nothing. */
static inline struct tacit_line tacit_line_with_meaning(struct tacit_line line, const char *words,
                                                        uint16_t number, uint16_t last)
{
    line = tacit_line_with(line, words);
    if (number <= last)
        return line;
    line = tacit_line_with(line, " (");
    return tacit_line_with(tacit_line_with_number(line, number), ")");
}

static inline struct tacit_line tacit_line_with_kinds(struct tacit_line line, const char *title,
                                                      uint16_t kinds)
{
    const char *before = title;
    for (uint16_t kind = 0; kind < 16; kind++) {
        if ((kinds & TACIT_KIND_SET(kind)) == 0)
            continue;
        line = tacit_line_with(line, before);
        line = tacit_line_with_meaning(line, tacit_kind_text(kind), kind,
                                       TACIT_KIND_P2MP_PW_UPSTREAM);
        before = ", ";
    }
    return line;
}

static inline struct tacit_line tacit_line_with_answer(struct tacit_line line,
                                                       struct tacit_answer answer)
{
    if (answer.refusal != TACIT_NOT_REFUSED) {
        line = tacit_line_with_number(tacit_line_with(line, "refused, number "), answer.refusal);
        return tacit_line_with(tacit_line_with(line, ": "), tacit_refusal_text(answer.refusal));
    }
    line = tacit_line_with_meaning(line, tacit_outcome_text(answer.outcome), answer.outcome,
                                   TACIT_AT_LIMIT);
    line = tacit_line_with_kinds(line, "; lost ", answer.lost);
    line = tacit_line_with_kinds(line, "; gained ", answer.gained);
    if (answer.written == 0)
        return line;
    line = tacit_line_with_number(tacit_line_with(line, "; "), answer.written);
    return tacit_line_with(line, " octets written");
}

/*
 * One line for any answer, like "done; lost PWid, Generalized PWid; 17 octets
 * written" or "refused, number 7: event not for this state". What is 0 is left
 * out; of a refused answer only the refusal is told, for all else in it is 0. A
 * number that means nothing stands as "unknown (12)".
 *
 * Writes at most len octets, the last of them 0, so that a line too long is cut.
 * With len 0 nothing is written, and text may be NULL. Returns how many characters
 * the whole line has: it is there in full if this is less than len, as it always
 * is with a len of TACIT_ANSWER_TEXT_MOST.
 */
#define TACIT_ANSWER_TEXT_MOST 512

static inline size_t tacit_answer_text(char *text, size_t len, struct tacit_answer answer)
{
    struct tacit_line line = {text, len, 0};
    line = tacit_line_with_answer(line, answer);
    if (len != 0)
        text[line.whole < len ? line.whole : len - 1] = 0;
    return line.whole;
}

/* The state of a record, or TACIT_NO_STATE, 255, if it is not sound. */
static inline uint8_t tacit_state(const uint8_t *record, size_t record_len)
{
    return tacit_sound(record, record_len) ? record[4] : (uint8_t)TACIT_NO_STATE;
}

#undef TACIT_ASSERT

#ifdef __cplusplus
}
#endif

#endif
