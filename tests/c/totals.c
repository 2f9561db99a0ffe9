/*
 * How many sessions may get a kind: the question, the totals counted anew, how each event
 * moves them, and 16.
 */
#include "harness.h"

#include <string.h>

#define APP(n) TACIT_APP_SET(n)
#define KIND(n) TACIT_KIND_SET(n)
#define COUNT(list) (sizeof(list) / sizeof *(list))

static const char no_tac[] = ALL_THREE "85060001 80";
static const char lists_4[] = "85060001 80 850F0005 80 00048000";
static const char lists_both[] = "85060001 80 850F0009 80 00048000 00078000";

static const struct tacit_totals none = {{0}};

static struct tacit_totals all_of(uint8_t total)
{
    struct tacit_totals totals;
    memset(totals.of, total, sizeof totals.of);
    return totals;
}

/* A session that enables 4 and 7 and holds all three capabilities: fresh, or opened so. */
static struct tacit_session session_with(const char *area)
{
    struct record record = area == NULL ? fresh(APP(4) | APP(7)) : opened(APP(4) | APP(7), area);
    return session_in(&record);
}

/* ---- The question ---- */

/* Whatever number a total is, while the others are another one. */
static void question(void)
{
    for (uint32_t kind = 0; kind <= 9; kind++) {
        for (unsigned total = 0; total < 256; total++) {
            trying("kind %lu, total %u", (unsigned long)kind, total);
            struct tacit_totals totals = all_of((uint8_t)(255 - total));
            totals.of[kind] = (uint8_t)total;
            struct tacit_total answer = kind_total(totals, kind);
            CHECK(answer.refusal == 0 && answer.total == total);
        }
    }
}

static void question_refused(void)
{
    static const uint32_t kinds[] = {
        10, 11, 15, 16, 255, 256, 265, 65536, UINT32_C(0x80000000), UINT32_MAX};
    for (size_t i = 0; i < COUNT(kinds); i++) {
        trying("kind %lu", (unsigned long)kinds[i]);
        for (unsigned total = 0; total < 256; total++) {
            struct tacit_total answer = kind_total(all_of((uint8_t)total), kinds[i]);
            CHECK(answer.refusal == 6 && answer.total == 0);
        }
    }
}

/* ---- Counted anew ---- */

/* Sound sessions, and the kinds that each permits. */
static const struct {
    uint16_t kinds;
    const char *record;
} sorts[] = {
    {0x101, "1600 0200 01 14 4800 4800 0000 00 00 00000000 01000000 00 00"},
    {0x100, "1600 0200 01 34 4800 4800 0000 01 00 00000000 01000000 07 07"},
    /* Out of force all ten, but for what is disabled. */
    {0x3FF, "1600 0200 01 04 4800 0000 0000 00 00 00000000 01000000 07 07"},
    {0x3FF, "1600 0200 01 00 0000 0000 0000 00 00 00000000 01000000 07 07"},
    {0x27C, "1600 0200 01 00 4800 0000 0000 0F 00 00000000 01000000 07 07"},
    /* Enabled or listed alone is not enough; of all thirteen, three are common, then all. */
    {0x001, "1600 0200 01 14 4800 0800 0000 00 00 00000000 01000000 00 00"},
    {0x100, "1600 0200 01 14 4000 4800 0000 00 00 00000000 01000000 00 00"},
    {0x0FC, "1600 0200 01 14 FF1F 2404 0000 00 00 00000000 01000000 07 07"},
    {0x3FF, "1600 0200 01 14 FF1F FF1F 0000 00 00 00000000 01000000 07 07"},
    /* The protected kinds by 8; none by 9. */
    {0x202, "1600 0200 01 14 8000 8000 0202 00 00 00000000 01000000 00 00"},
    {0x000, "1600 0200 01 14 0001 0001 FF03 00 00 00000000 01000000 07 07"},
    /* Of kinds 2 to 6 those whose capability both hold: none, P2MP, MP2MP, P2MP and HSMP. */
    {0x383, "1600 0200 01 00 4800 0000 0000 00 00 00000000 01000000 07 00"},
    {0x387, "1600 0200 01 04 4800 0000 0000 00 00 00000000 01000000 07 01"},
    {0x39B, "1600 0200 01 04 4800 0000 0000 00 00 00000000 01000000 03 06"},
    {0x0E4, "1600 0200 01 14 FF1F 2404 0000 00 00 00000000 01000000 05 07"},
    {0x006, "1600 0200 01 14 8000 8000 7E00 00 00 00000000 01000000 01 01"},
    /* Ready, Held and Gone. */
    {0x000, "1600 0200 00 04 4800 0000 0000 00 00 00000000 01000000 00 00"},
    {0x000, "1600 0200 02 06 4800 0000 0000 00 00 00000000 01000000 00 00"},
    {0x000, "1600 0200 03 0F 4800 0000 0000 00 00 00000000 01000000 00 00"},
};

static struct tacit_session of_sort(size_t i)
{
    struct record record = record_of(sorts[i % COUNT(sorts)].record);
    return session_in(&record);
}

/* Rows of one to 64 of them: each adds its own kinds, and no other. */
static void counted_anew(void)
{
    for (size_t first = 0; first < COUNT(sorts); first++) {
        struct sessions row = {.length = 0};
        struct tacit_totals sum = {{0}};
        while (row.length < TACIT_ROW_MOST) {
            size_t sort = (first + row.length) % COUNT(sorts);
            row.at[row.length++] = of_sort(sort);
            trying("a row of %zu, its last of sort %zu", row.length, sort);
            for (uint32_t kind = 0; kind <= 9; kind++)
                sum.of[kind] += (uint8_t)(sorts[sort].kinds >> kind & 1);
            struct tacit_row_totals answer = recount(&row);
            CHECK(answer.refusal == 0 && same_totals(answer.totals, sum));
        }
    }
}

static void counted_to_64(void)
{
    struct sessions row = {.length = TACIT_ROW_MOST};
    CHECK(recount(&row).refusal == 0 && same_totals(recount(&row).totals, none));
    for (size_t i = 0; i < SESSIONS_MOST; i++)
        row.at[i] = session_with(no_tac);
    CHECK(same_totals(recount(&row).totals, all_of(64)));
    for (row.length = TACIT_ROW_MOST + 1; row.length <= SESSIONS_MOST; row.length++) {
        trying("a row of %zu", row.length);
        CHECK(recount(&row).refusal == 11 && same_totals(recount(&row).totals, none));
    }
    row.length = 0;
    CHECK(recount(&row).refusal == 11 && same_totals(recount(&row).totals, none));
}

/* One that is not sound, wherever it is, and nothing is counted; 11 comes before it. */
static void counting_refused(void)
{
    static const struct tacit_session unsound[] = {
        {.state = TACIT_NO_STATE},
        {.flags = 0x80},
        {.state = TACIT_OPEN, .disabled = 0x10},
        {.state = TACIT_OPEN, .flags = 0x04, .enabled = 0x48, .listed = 0x48},
        {.state = TACIT_HELD, .flags = 0x04},
    };
    static const size_t lengths[] = {1, 2, 63, 64, 65};
    for (size_t i = 0; i < COUNT(lengths); i++) {
        for (size_t place = 0; place < lengths[i]; place++) {
            struct sessions row = {.length = lengths[i]};
            trying("not sound at %zu of %zu", place, row.length);
            for (size_t at = 0; at < row.length; at++)
                row.at[at] = of_sort(at);
            row.at[place] = unsound[place % COUNT(unsound)];
            struct tacit_row_totals answer = recount(&row);
            CHECK(answer.refusal == (row.length == 65 ? 11 : 10));
            CHECK(same_totals(answer.totals, none));
        }
    }
}

/* ---- What each event moves ---- */

/* A session before an event, the event, and the kinds that it loses and gains. */
struct move {
    const char *opening; /* the area that it was opened with; NULL: it is Ready */
    struct tacit_event event;
    const char *area;
    uint16_t lost, gained;
    uint8_t outcome, state;
};

#define EVENT(name) {TACIT_EVENT_##name, 0, 0, 0}
#define CHANGE(ta_id, on) {TACIT_EVENT_LOCAL_CHANGE, ta_id, on, 0}
#define HELLO(number) {TACIT_EVENT_HELLO, 0, 0, number}

static const struct move movers[] = {
    /* Up on opening. */
    {NULL, EVENT(INITIALIZATION), lists_4, 0, 0x001, TACIT_DONE, TACIT_OPEN},
    {NULL, EVENT(INITIALIZATION), lists_both, 0, 0x101, TACIT_DONE, TACIT_OPEN},
    {NULL, EVENT(INITIALIZATION), no_tac, 0, 0x3FF, TACIT_DONE, TACIT_OPEN},
    {NULL, EVENT(INITIALIZATION), ALL_THREE "850D0003 80 90 B0", 0, 0x37E, TACIT_DONE, TACIT_OPEN},
    {NULL, EVENT(INITIALIZATION), "85090001 00 850D0003 80 90 B0", 0, 0x31A, TACIT_DONE,
     TACIT_OPEN},
    /* Down on leaving Open, each way. */
    {lists_both, EVENT(CLOSED), "", 0x101, 0, TACIT_DONE, TACIT_READY},
    {no_tac, EVENT(CLOSED), "", 0x3FF, 0, TACIT_DONE, TACIT_READY},
    {lists_both, EVENT(MISMATCH), "", 0x101, 0, TACIT_MISMATCH, TACIT_HELD},
    {no_tac, EVENT(MISMATCH), "", 0x3FF, 0, TACIT_MISMATCH, TACIT_HELD},
    {lists_4, CHANGE(4, 0), "", 0x001, 0, TACIT_MISMATCH, TACIT_HELD},
    {lists_both, EVENT(CAPABILITY), "850F0009 80 00040000 00070000", 0x101, 0, TACIT_MISMATCH,
     TACIT_HELD},
    {no_tac, EVENT(CAPABILITY), "850F0001 80", 0x3FF, 0, TACIT_MISMATCH, TACIT_HELD},
    /* Either way while Open. */
    {lists_both, EVENT(CAPABILITY), "850D0002 80 C0", 0x100, 0, TACIT_DONE, TACIT_OPEN},
    {"85060001 80 850D0003 80 C0 90", EVENT(CAPABILITY), "850D0002 80 40", 0, 0x100, TACIT_DONE,
     TACIT_OPEN},
    {lists_both, EVENT(CAPABILITY), "850F0001 00", 0, 0x282, TACIT_DONE, TACIT_OPEN},
    {lists_both, EVENT(CAPABILITY), ALL_THREE "850F0001 00", 0, 0x2FE, TACIT_DONE, TACIT_OPEN},
    {no_tac, EVENT(CAPABILITY), lists_4, 0x3FE, 0, TACIT_DONE, TACIT_OPEN},
    {lists_both, CHANGE(4, 0), "", 0x001, 0, TACIT_DONE, TACIT_OPEN},
    {ALL_THREE "85060001 80 850F0009 80 00048000 00038000", CHANGE(3, 1), "", 0, 0x07C, TACIT_DONE,
     TACIT_OPEN},
    {no_tac, EVENT(CAPABILITY), "85080001 00 89020001 00", 0x064, 0, TACIT_DONE, TACIT_OPEN},
    {"89020001 00", EVENT(CAPABILITY), "85080001 80 89020001 80", 0, 0x004, TACIT_DONE,
     TACIT_OPEN},
    /* Both ways at once. */
    {lists_4, EVENT(CAPABILITY), "850F0009 80 00040000 00078000", 0x001, 0x100, TACIT_DONE,
     TACIT_OPEN},
    {"85060001 80 850D0002 80 90", EVENT(CAPABILITY), "850D0003 80 10 A0", 0x002, 0x001,
     TACIT_DONE, TACIT_OPEN},
    {"85080001 80", EVENT(CAPABILITY), "85080001 00 85090001 80", 0x004, 0x018, TACIT_DONE,
     TACIT_OPEN},
};

/* The session of a move stands between two others, one of them Open. */
static struct sessions before(const struct move *move)
{
    struct sessions row = {
        .at = {session_with(lists_both), session_with(move->opening), session_with(NULL)},
        .length = 3,
    };
    row.totals = recount(&row).totals;
    return row;
}

static struct tacit_answer make(struct sessions *row, const struct move *move)
{
    struct octets area = hex(move->area);
    uint8_t room[TACIT_MESSAGE_LENGTH] = {0};
    struct row_call call = {.at = 1,
                            .event = move->event,
                            .limits = tacit_no_limits(),
                            .area = area.at,
                            .area_length = area.length,
                            .room = room,
                            .room_length = sizeof room};
    return row_event(row, call);
}

static bool is_in(uint16_t set, uint32_t kind)
{
    return (set >> kind & 1) != 0;
}

static void up_and_down(void)
{
    for (size_t i = 0; i < COUNT(movers); i++) {
        const struct move *move = &movers[i];
        trying("move %zu", i);
        struct sessions row = before(move);
        const struct tacit_totals found = row.totals;
        struct tacit_answer answer = make(&row, move);
        CHECK(answer.refusal == 0 && answer.outcome == move->outcome);
        CHECK(answer.lost == move->lost && answer.gained == move->gained);
        CHECK(row.at[1].state == move->state);
        for (uint32_t kind = 0; kind <= 9; kind++)
            CHECK(row.totals.of[kind] ==
                  found.of[kind] - is_in(move->lost, kind) + is_in(move->gained, kind));
        CHECK(same_totals(row.totals, walked(&row)));
        CHECK(same_totals(row.totals, recount(&row).totals));
    }
}

/* A row of 64: every total to 64 and back to 0, and none outside. */
static void all_the_way(void)
{
    struct sessions row = {.length = TACIT_ROW_MOST};
    for (size_t at = 0; at < row.length; at++)
        row.at[at] = session_with(NULL);
    for (size_t at = 0; at < row.length; at++) {
        trying("%zu open", at);
        CHECK(row_initialization(&row, at, tacit_no_limits(), no_tac).gained == TACIT_ALL_KINDS);
        CHECK(same_totals(row.totals, all_of((uint8_t)(at + 1))));
    }
    for (size_t at = 0; at < row.length; at++) {
        trying("%zu have left", at);
        struct tacit_answer answer = at % 3 == 0   ? row_closed(&row, at)
                                     : at % 3 == 1 ? row_mismatch(&row, at)
                                                   : row_capability(&row, at, "850F0001 80");
        CHECK(answer.lost == TACIT_ALL_KINDS);
        CHECK(same_totals(row.totals, all_of((uint8_t)(63 - at))));
    }
    CHECK(row_closed(&row, 0).refusal == 7 && same_totals(row.totals, none));
}

/* ---- 16 ---- */

/* A total, and what it is after its kind was lost, or gained; or the event is refused. */
enum { REFUSED = 255 };
static const struct {
    uint8_t total, lost, gained;
} edges[] = {
    {0, REFUSED, 1},
    {1, 0, 2},
    {2, 1, 3},
    {62, 61, 63},
    {63, 62, 64},
    {64, 63, REFUSED},
    {65, 64, REFUSED},
    {66, REFUSED, REFUSED},
    {67, REFUSED, REFUSED},
    {128, REFUSED, REFUSED},
    {200, REFUSED, REFUSED},
    {255, REFUSED, REFUSED},
};

/* Kinds that do not move have 200, the others that do 10. */
static struct tacit_totals with_total(const struct move *move, uint32_t kind, uint8_t total)
{
    struct tacit_totals totals = all_of(200);
    for (uint32_t other = 0; other <= 9; other++)
        if (is_in(move->lost | move->gained, other))
            totals.of[other] = 10;
    totals.of[kind] = total;
    return totals;
}

static void expect_edge(const struct move *move, uint32_t kind, uint8_t total, uint8_t wanted)
{
    struct sessions row = before(move);
    row.totals = with_total(move, kind, total);
    const struct sessions found = row;
    struct tacit_answer answer = make(&row, move);
    if (wanted == REFUSED) {
        CHECK(answer.refusal == 16 && answer.outcome == 0);
        CHECK(answer.lost == 0 && answer.gained == 0 && answer.written == 0);
        CHECK(same_totals(row.totals, found.totals));
        CHECK(same_session(row.at[1], found.at[1]));
        return;
    }
    CHECK(answer.refusal == 0 && answer.outcome == move->outcome);
    for (uint32_t other = 0; other <= 9; other++)
        CHECK(row.totals.of[other] == (other == kind                ? wanted
                                       : is_in(move->lost, other)   ? 9
                                       : is_in(move->gained, other) ? 11
                                                                    : 200));
    CHECK(row.at[1].state == move->state);
}

/* Each kind of each move, at each edge. */
static void at_the_edges(void)
{
    for (size_t i = 0; i < COUNT(movers); i++) {
        for (uint32_t kind = 0; kind <= 9; kind++) {
            bool lost = is_in(movers[i].lost, kind), gained = is_in(movers[i].gained, kind);
            if (!lost && !gained)
                continue;
            for (size_t edge = 0; edge < COUNT(edges); edge++) {
                trying("move %zu, kind %lu, total %u", i, (unsigned long)kind, edges[edge].total);
                expect_edge(&movers[i], kind, edges[edge].total,
                            lost ? edges[edge].lost : edges[edge].gained);
            }
        }
    }
}

/* Every number that a total can be: lost from 1 to 65, gained from 0 to 63, or 16. */
static void every_total(void)
{
    const struct move opens = movers[0];
    const struct move leaves = {lists_4, EVENT(CLOSED), "", 1, 0, 0, TACIT_READY};
    for (unsigned total = 0; total < 256; total++) {
        trying("total %u", total);
        expect_edge(&leaves, 0, (uint8_t)total,
                    total >= 1 && total <= 65 ? (uint8_t)(total - 1) : REFUSED);
        expect_edge(&opens, 0, (uint8_t)total, total <= 63 ? (uint8_t)(total + 1) : REFUSED);
    }
}

/* What loses and gains nothing never comes to 16, whatever the totals are. */
static void nothing_moves(void)
{
    static const struct move still[] = {
        {NULL, HELLO(9), "", 0, 0, TACIT_DONE, TACIT_READY},
        {lists_both, HELLO(9), "", 0, 0, TACIT_DONE, TACIT_OPEN},
        {lists_both, CHANGE(4, 1), "", 0, 0, TACIT_UNCHANGED, TACIT_OPEN},
        {lists_both, CHANGE(5, 1), "", 0, 0, TACIT_DONE, TACIT_OPEN},
        {NULL, CHANGE(4, 0), "", 0, 0, TACIT_DONE, TACIT_READY},
        {NULL, EVENT(MISMATCH), "", 0, 0, TACIT_MISMATCH, TACIT_HELD},
        {NULL, EVENT(INITIALIZATION), "850F0001 80", 0, 0, TACIT_MISMATCH, TACIT_HELD},
        {lists_both, EVENT(CAPABILITY), "", 0, 0, TACIT_DONE, TACIT_OPEN},
        {lists_both, EVENT(CAPABILITY), "850F0005 80 00058000 850D0002 80 A0", 0, 0, TACIT_DONE,
         TACIT_OPEN},
        {NULL, EVENT(INITIALIZATION), "850F0005 80 00048000 850D0002 80 90", 0, 0, TACIT_DONE,
         TACIT_OPEN},
        /* Kinds that are not negotiated, or whose capability the peer lacks. */
        {lists_both, EVENT(CAPABILITY), ALL_THREE, 0, 0, TACIT_DONE, TACIT_OPEN},
        {no_tac, EVENT(CAPABILITY), ALL_THREE, 0, 0, TACIT_DONE, TACIT_OPEN},
        {"85060001 80 850F0009 80 00048000 00038000", CHANGE(3, 1), "", 0, 0, TACIT_DONE,
         TACIT_OPEN},
    };
    static const uint8_t numbers[] = {0, 64, 65, 66, 200, 255};
    for (size_t i = 0; i < COUNT(still); i++) {
        for (size_t total = 0; total < COUNT(numbers); total++) {
            trying("still %zu, totals of %u", i, numbers[total]);
            struct sessions row = before(&still[i]);
            row.totals = all_of(numbers[total]);
            struct tacit_answer answer = make(&row, &still[i]);
            CHECK(answer.refusal == 0 && answer.outcome == still[i].outcome);
            CHECK(row.at[1].state == still[i].state);
            CHECK(same_totals(row.totals, all_of(numbers[total])));
        }
    }
}

/* ---- Its place in the order ---- */

/* Causes are taken away one by one; the totals are at fault all the time. */
static void last_at_initialization(void)
{
    static const struct tacit_limits nobody = {{0}};
    static uint8_t over[4097] = {0x85, 0x80, 0x0F, 0xFD};
    struct sessions row = {.at = {session_with(NULL), session_with(lists_4), session_with(NULL)},
                           .length = 3,
                           .totals = all_of(255)};
    struct row_call call = {.at = 3,
                            .event = {.which = TACIT_EVENT_INITIALIZATION},
                            .limits = tacit_no_limits(),
                            .area = over,
                            .area_length = sizeof over};
    row.at[2].flags |= 0x80;
    CHECK(row_event(&row, call).refusal == 11);
    call.at = 1;
    CHECK(row_event(&row, call).refusal == 10);
    row.at[2].flags &= 0x7F;
    CHECK(row_event(&row, call).refusal == 7);
    call.at = 0;
    CHECK(row_event(&row, call).refusal == 1);
    CHECK(row_initialization(&row, 0, tacit_no_limits(), "850F0005 80").refusal == 2);
    CHECK(row_initialization(&row, 0, tacit_no_limits(), "06000000").refusal == 4);
    CHECK(row_initialization(&row, 0, tacit_no_limits(), "85060001 80 85060001 80").refusal == 5);
    CHECK(row_initialization(&row, 0, tacit_no_limits(), "850F0000").refusal == 3);
    /* Neither is refused, and neither gains anything. */
    struct sessions copy = row;
    CHECK(row_initialization(&copy, 0, nobody, lists_4).outcome == TACIT_AT_LIMIT);
    copy = row;
    CHECK(row_initialization(&copy, 0, nobody, "850F0001 80").outcome == TACIT_MISMATCH);
    CHECK(row_initialization(&row, 0, tacit_no_limits(), lists_4).refusal == 16);
    row.totals.of[0] = 63;
    CHECK(row_initialization(&row, 0, tacit_no_limits(), lists_4).outcome == TACIT_DONE);
    CHECK(row.totals.of[0] == 64);
}

static void last_at_capability(void)
{
    static uint8_t over[4097] = {0x85, 0x80, 0x0F, 0xFD};
    struct sessions row = {.at = {session_with(NULL), session_with(lists_4)}, .length = 2};
    struct row_call call = {.at = 2,
                            .event = {.which = TACIT_EVENT_CAPABILITY},
                            .area = over,
                            .area_length = sizeof over};
    row.at[0].hello = 1;
    CHECK(row_event(&row, call).refusal == 11);
    call.at = 1;
    CHECK(row_event(&row, call).refusal == 10);
    row.at[0].hello = 0;
    call.at = 0;
    CHECK(row_event(&row, call).refusal == 7);
    call.at = 1;
    CHECK(row_event(&row, call).refusal == 1);
    CHECK(row_capability(&row, 1, "850D0002 80").refusal == 2);
    CHECK(row_capability(&row, 1, "850D0002 80 90 06000000").refusal == 4);
    CHECK(row_capability(&row, 1, "850D0002 80 90 850D0002 80 90").refusal == 5);
    CHECK(row_capability(&row, 1, "850D0002 80 90 85060000").refusal == 3);
    CHECK(row_capability(&row, 1, "850D0002 80 90").refusal == 16);
    /* So is a mismatch, which loses what was permitted. */
    CHECK(row_capability(&row, 1, "850F0005 80 00040000").refusal == 16);
    row.totals.of[0] = 1;
    CHECK(row_capability(&row, 1, "850D0002 80 90").lost == KIND(0));
    CHECK(row_capability(&row, 1, "850F0005 80 00040000").outcome == TACIT_MISMATCH);
    CHECK(same_totals(row.totals, none));
}

static void last_at_local_change(void)
{
    uint8_t room[17] = "sixteen and one.";
    struct sessions row = {.at = {session_with(NULL), session_with(lists_both)}, .length = 2};
    row.at[0].disabled = 1;
    row.at[1].flags &= (uint8_t)~TACIT_FLAG_PEER_DYNAMIC;
    CHECK(row_local_change(&row, 2, 14, false, room, 16).refusal == 11);
    CHECK(row_local_change(&row, 1, 14, false, room, 16).refusal == 10);
    row.at[0].disabled = 0;
    CHECK(row_local_change(&row, 1, 14, false, room, 16).refusal == 6);
    CHECK(row_local_change(&row, 1, 5, false, room, 16).outcome == TACIT_UNCHANGED);
    CHECK(row_local_change(&row, 1, 4, false, room, 16).refusal == 9);
    row.at[1].flags |= TACIT_FLAG_PEER_DYNAMIC;
    CHECK(row_local_change(&row, 1, 4, false, room, 16).refusal == 8);
    CHECK(row_local_change(&row, 1, 4, false, room, 17).refusal == 16);
    CHECK(memcmp(room, "sixteen and one.", sizeof room) == 0);
    row.totals.of[0] = 1;
    CHECK(row_local_change(&row, 1, 4, false, room, 17).written == 17);
    /* Now 7 alone is common. */
    CHECK(row_local_change(&row, 1, 7, false, room, 16).refusal == 8);
    CHECK(row_local_change(&row, 1, 7, false, room, 17).refusal == 16);
    row.totals.of[8] = 1;
    CHECK(row_local_change(&row, 1, 7, false, room, 17).outcome == TACIT_MISMATCH);
    CHECK(same_totals(row.totals, none));
}

static void last_at_the_others(void)
{
    static const uint32_t events[] = {TACIT_EVENT_MISMATCH, TACIT_EVENT_CLOSED};
    for (size_t i = 0; i < COUNT(events); i++) {
        struct sessions row = {.at = {session_with(NULL), session_with(lists_4)}, .length = 2};
        struct row_call call = {.at = 2, .event = {.which = events[i]}};
        trying("event %lu", (unsigned long)events[i]);
        row.at[0].state = TACIT_NO_STATE;
        CHECK(row_event(&row, call).refusal == 11);
        call.at = 1;
        CHECK(row_event(&row, call).refusal == 10);
        row.at[0] = session_with(NULL);
        row_mismatch(&row, 0);
        call.at = 0;
        CHECK(row_event(&row, call).refusal == 7);
        call.at = 1;
        CHECK(row_event(&row, call).refusal == 16);
        call.event.which = 6;
        CHECK(row_event(&row, call).refusal == 7);
        call.event.which = events[i];
        row.totals.of[0] = 1;
        CHECK(row_event(&row, call).lost == KIND(0) && same_totals(row.totals, none));
    }
}

/* ---- What 16 leaves, and what mends it ---- */

/* Nothing has happened: the call made again with the right totals is the first one. */
static void as_found_and_mended(void)
{
    const struct tacit_session found[2] = {session_with(lists_both), session_with(lists_both)};
    const struct tacit_totals spoiled = {{0, 1, 63, 64, 65, 66, 200, 255, 2, 9}};
    const struct tacit_event event = {TACIT_EVENT_LOCAL_CHANGE, 4, 0, 0};
    struct tacit_session row[2] = {found[0], found[1]};
    uint8_t room[19] = "eighteen, then one";
    struct tacit_row_answer after = tacit_row_event(row, 2, 1, event, tacit_no_limits(), spoiled,
                                                    NULL, 0, room, sizeof room);
    CHECK(after.answer.refusal == 16 && after.answer.outcome == 0);
    CHECK(after.answer.lost == 0 && after.answer.gained == 0 && after.answer.written == 0);
    CHECK(same_totals(after.totals, spoiled));
    CHECK(same_session(row[0], found[0]) && same_session(row[1], found[1]));
    CHECK(memcmp(room, "eighteen, then one", sizeof room) == 0);
    struct tacit_totals kept = spoiled;
    CHECK(tacit_row_local_change(row, 2, 1, &kept, 4, false, room, sizeof room).refusal == 16);
    CHECK(same_totals(kept, spoiled) && memcmp(room, "eighteen, then one", sizeof room) == 0);

    kept = tacit_recount(row, 2).totals;
    CHECK(kept.of[0] == 2 && kept.of[8] == 2);
    struct tacit_answer answer = tacit_row_local_change(row, 2, 1, &kept, 4, false, room, 17);
    CHECK(answer.refusal == 0 && answer.written == 17 && answer.lost == KIND(0));
    CHECK(kept.of[0] == 1 && kept.of[8] == 2);
    struct octets message = hex("0202000D 00000001 850F0005 80 00040000");
    CHECK(memcmp(room, message.at, message.length) == 0 && room[17] == 'e');
    CHECK(row[1].next == 2 && same_session(row[0], found[0]));
}

/* ---- Over any events ---- */

static const char *const areas[] = {
    "",
    "85060001 80",
    "85060001 80 850F0009 80 00048000 00078000",
    "85060001 80 850F0011 80 00038000 00068000 00088000 000A8000",
    ALL_THREE "85060001 80",
    "85060001 80 85090001 00 850F0009 80 00038000 00088000",
    "85080001 80 85090001 80",
    "85080001 00 89020001 80",
    "85060001 80 850F0005 80 00028000 850D0003 80 A0 B0",
    "850F0009 80 00040000 00078000",
    "850F0001 00",
    "850F0001 80",
    "850D0005 80 90 A0 B0 C0",
    "850D0005 80 10 20 30 40",
    "850D0002 80 90 06000000",
};

/* Most often one that reads an area, now and then with limits that turn some away. */
static struct tacit_answer any_event(struct sessions *row, size_t at, uint32_t hello_number)
{
    uint32_t which = any_number() % 16;
    struct octets area = hex(areas[any_number() % COUNT(areas)]);
    uint8_t room[20] = {0};
    struct row_call call = {
        .at = at,
        .event = {which < 7 ? which : which % 2, any_number() % 15, any_number() % 2,
                  hello_number},
        .limits = tacit_no_limits(),
        .area = area.at,
        .area_length = area.length,
        .room = room,
        .room_length = any_number() % 4 == 0 ? any_number() % 21 : sizeof room,
    };
    if (any_number() % 4 == 0)
        memset(call.limits.of, (int)(any_number() % 8), sizeof call.limits.of);
    return row_event(row, call);
}

/* The kept totals are what a walk counts after each event, refused ones included. */
static void follow(struct sessions *row)
{
    unsigned refused = 0, lost = 0, gained = 0;
    for (uint32_t step = 0; step < 2000; step++) {
        size_t at = any_number() % (row->length + 1);
        trying("step %lu, at session %zu of %zu", (unsigned long)step, at, row->length);
        struct tacit_answer answer = any_event(row, at, step);
        refused += answer.refusal != 0;
        lost += answer.lost != 0;
        gained += answer.gained != 0;
        CHECK(answer.refusal != 16);
        struct tacit_totals walk = walked(row);
        CHECK(same_totals(row->totals, walk) && same_totals(row->totals, recount(row).totals));
        for (uint32_t kind = 0; kind <= 9; kind++)
            CHECK(kind_total(row->totals, kind).total == walk.of[kind]);
    }
    CHECK(refused > 100 && lost > 100 && gained > 100);
}

static void from_fresh_sessions(void)
{
    static const size_t lengths[] = {1, 5, 64};
    for (size_t i = 0; i < COUNT(lengths); i++) {
        struct sessions row = {.length = lengths[i]};
        for (size_t at = 0; at < row.length; at++) {
            struct record record = {{0}, TACIT_RECORD_LENGTH};
            struct tacit_settings settings = {.initiating = at & 1,
                                              .active = at & 2,
                                              .uses_tac = at % 5 != 4,
                                              .drops = at & 4,
                                              .protected_kinds = any_number() & TACIT_ALL_KINDS,
                                              .enabled = any_number() & TACIT_ALL_APPS,
                                              .capabilities = any_number() % 8};
            CHECK(create(&record, settings) == 0);
            row.at[at] = load(&record).session;
        }
        CHECK(same_totals(recount(&row).totals, none));
        follow(&row);
    }
}

/* A row that was loaded while sessions of it were Open, and its totals counted anew. */
static void from_loaded_sessions(void)
{
    struct sessions row = {.length = TACIT_ROW_MOST};
    for (size_t at = 0; at < row.length; at++)
        row.at[at] = of_sort(at);
    row.totals = recount(&row).totals;
    CHECK(row.totals.of[0] > 20);
    follow(&row);
}

void totals(void)
{
    test("the total of each kind", question);
    test("the total of no kind", question_refused);
    test("totals counted anew", counted_anew);
    test("totals counted anew, of 64 and more", counted_to_64);
    test("counting anew refused", counting_refused);
    test("totals up on opening, down on leaving", up_and_down);
    test("totals from 0 to 64 and back", all_the_way);
    test("totals at their edges", at_the_edges);
    test("every number as a total", every_total);
    test("events that move no total", nothing_moves);
    test("16 last, at an Initialization", last_at_initialization);
    test("16 last, at a Capability message", last_at_capability);
    test("16 last, at a local change", last_at_local_change);
    test("16 last, at a mismatch and a close", last_at_the_others);
    test("what 16 leaves as found, and what mends it", as_found_and_mended);
    test("totals over any events, from fresh sessions", from_fresh_sessions);
    test("totals over any events, from loaded sessions", from_loaded_sessions);
}
