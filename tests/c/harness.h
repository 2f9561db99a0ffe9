/*
 * The test harness: counting, guarded buffers, and each of the library's calls
 * in a wrapper that checks what must hold of every call.
 */
#ifndef HARNESS_H
#define HARNESS_H

#include "tacit.h"

/* ---- Counting ---- */

/* Runs one test and prints its line. */
void test(const char *name, void (*body)(void));

/* Says what is being tried, for the line that a failure prints. */
void trying(const char *format, ...);

bool check(bool holds, const char *file, int line, const char *fact);
#define CHECK(fact) check((fact), __FILE__, __LINE__, #fact)

/* ---- Where buffers lie ---- */

/*
 * Every buffer that the wrappers lend touches a page that may not be read or
 * written: behind it, or before it. A call that looks outside on that side
 * ends the program; on the other side only a write is noticed.
 */
enum side { GUARD_BEHIND, GUARD_BEFORE };
void lend_with(enum side side, bool empty_is_null);

/* For the wrappers: a buffer with this content, one at a time in each place. */
enum place { RECORD, AREA, ROOM, ROW, TOTALS, PLACES };
uint8_t *lend(enum place place, const uint8_t *content, size_t length);

/* Are the octets beside a buffer of this length as they were? */
bool margin_kept(enum place place, size_t length);

bool same(const uint8_t *a, const uint8_t *b, size_t length);

/* ---- Sessions ---- */

#define RECORD_MOST 64

struct record {
    uint8_t octets[RECORD_MOST];
    size_t length;
};

struct octets {
    uint8_t at[256];
    size_t length;
};

/* The octets that a text gives in hexadecimal, with blanks anywhere. */
struct octets hex(const char *text);

struct record record_of(const char *text);
bool same_record(const struct record *a, const struct record *b);

/* A fresh initiating, active session that uses TAC, holds these, and has message number 1. */
struct record holding(uint32_t capabilities, uint32_t enabled);

/* That session, which holds all three capabilities. */
struct record fresh(uint32_t enabled);

/* These sessions after an Initialization with this area, which must open them. */
struct record opened_holding(uint32_t capabilities, uint32_t enabled, const char *area);
struct record opened(uint32_t enabled, const char *area);

/* A part of an area: P2MP, MP2MP and HSMP, with S = 1. */
#define ALL_THREE "85080001 80 85090001 80 89020001 80 "

/* The kinds that need no capability. */
#define FREE_KINDS UINT32_C(0x383)

/* The capability that a kind needs, as a set, without the library. */
uint32_t needed_for(uint32_t kind);

/* ---- Calls ---- */

struct tacit_reading read_area(const uint8_t *area, size_t length);
uint8_t create(struct record *record, struct tacit_settings settings);
struct tacit_answer initialization(struct record *record, const uint8_t *area, size_t length);
struct tacit_answer capability(struct record *record, const uint8_t *area, size_t length);
struct tacit_answer local_change(struct record *record, uint32_t ta_id, bool on, uint8_t *room,
                                 size_t room_length);
struct tacit_answer mismatch(struct record *record);
struct tacit_answer hello(struct record *record, uint32_t number);
struct tacit_answer closed(struct record *record);
struct tacit_permission permitted(const struct record *record, uint32_t kind);
struct tacit_kinds permitted_kinds(const struct record *record);
struct tacit_reason why_not(const struct record *record, uint32_t kind);
struct tacit_retry retry_interval(const struct record *record);
bool sound(const struct record *record);
uint8_t state(const struct record *record);

/* The same, with the area in hexadecimal. */
struct tacit_reading read_text(const char *area);
struct tacit_answer initialization_text(struct record *record, const char *area);
struct tacit_answer capability_text(struct record *record, const char *area);

/* The set of kinds permitted, of a record that must be sound. */
uint32_t kinds(const struct record *record);

/* ---- Rows ---- */

#define SESSIONS_MOST 72 /* more than a row may have */

/* A row, and the totals that are kept with it: 0 unless they are set. */
struct sessions {
    struct tacit_session at[SESSIONS_MOST];
    size_t length;
    struct tacit_totals totals;
};

bool same_session(struct tacit_session a, struct tacit_session b);

/* The record that holds a session, sound or not, and the reverse; without the library. */
struct record record_for(struct tacit_session session);
struct tacit_session session_in(const struct record *record);

/* The set of applications that a session uses. */
uint32_t used(struct tacit_session session);

struct tacit_loaded load(const struct record *record);
uint8_t store(struct tacit_session session, struct record *record);
struct tacit_limited set_limit(struct tacit_limits limits, uint32_t ta_id, uint32_t limit);
struct tacit_count row_count(const struct sessions *row, uint32_t ta_id);
struct tacit_total kind_total(struct tacit_totals totals, uint32_t kind);
struct tacit_row_totals recount(const struct sessions *row);

bool same_totals(struct tacit_totals a, struct tacit_totals b);

/* How many sessions permit each kind, by a walk that asks every one of them. */
struct tacit_totals walked(const struct sessions *row);

/* What a row's event is given beside the row. */
struct row_call {
    size_t at;
    struct tacit_event event;
    struct tacit_limits limits;
    const uint8_t *area;
    size_t area_length;
    uint8_t *room;
    size_t room_length; /* at most 64 */
};

/*
 * Makes the call twice, by tacit_row_event and by the event's own name, each time
 * with other octets as padding. Both must come to what the call for a record
 * comes to, with the limits held to and the row's totals moved, and touch nothing
 * else.
 */
struct tacit_answer row_event(struct sessions *row, struct row_call call);

/* The six events by their names, with areas in hexadecimal. */
struct tacit_answer row_initialization(struct sessions *row, size_t at, struct tacit_limits limits,
                                       const char *area);
struct tacit_answer row_capability(struct sessions *row, size_t at, const char *area);
struct tacit_answer row_local_change(struct sessions *row, size_t at, uint32_t ta_id, bool on,
                                     uint8_t *room, size_t room_length);
struct tacit_answer row_mismatch(struct sessions *row, size_t at);
struct tacit_answer row_hello(struct sessions *row, size_t at, uint32_t number);
struct tacit_answer row_closed(struct sessions *row, size_t at);

/* ---- Wishes ---- */

/*
 * Makes the call by tacit_wish, and by tacit_session_wish where the record holds a
 * session and nothing beside it. Both must come to what the header says of any call,
 * down to the octets written. The room has 64 octets at the most.
 */
struct tacit_wished wish(struct record *record, uint32_t wishes, uint32_t app, bool disable,
                         uint8_t *room, size_t room_length);

/* The SAC for these wishes, and whether a kind is wanted: with all that the header says. */
struct tacit_written wish_sac(uint32_t wishes, uint8_t *room, size_t room_length);
struct tacit_want is_wanted(uint32_t wishes, uint32_t kind);

/* The kind that an App controls, 1 to 4, without the library. */
uint32_t kind_of(uint32_t app);

/* ---- Records of kind 1 ---- */

/*
 * Moves a record into the room of this length, whatever stands there. Both must come to
 * what the header says of any call, with the record read and a room refused as they were.
 */
struct tacit_moved forward(const struct record *kind1, struct record *room);
uint8_t back(const struct record *kind2, struct record *room);

/* The record of the other kind with the same octets 4 to 21, and no capabilities. */
struct record kind2_for(const struct record *kind1);
struct record kind1_for(const struct record *kind2);

bool sound_kind1(const struct record *kind1);

/* The kinds that a session moved forward loses, without the library. */
uint32_t lost_by_move(struct tacit_session session);

/* ---- Numbers without order ---- */

/* The same ones in every run. */
uint32_t any_number(void);

/* ---- The tests ---- */

void examples(void);
void rules(void);
void rows(void);
void totals(void);
void wishes(void);
void capabilities(void);
void moves(void);
void refusals(void);
void lengths(void);
void numbers(void);
void damage(void);
void words(void);

#endif
