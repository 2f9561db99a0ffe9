/* Rows of sessions: limits, what an event leaves alone, refusals, and sessions by themselves. */
#include "harness.h"

#include <string.h>

#define APP(n) TACIT_APP_SET(n)

static const char no_tac[] = "85060001 80";
static const char lists_none[] = "850F0001 80";
static const char lists_4[] = "85060001 80 850F0005 80 00048000";
static const char lists_7[] = "85060001 80 850F0005 80 00078000";
static const char lists_both[] = "85060001 80 850F0009 80 00048000 00078000";

static const struct tacit_limits nobody = {{0}};

/* A fresh session that enables 4 and 7 and holds P2MP, with message number 1. */
static struct tacit_session session_of(bool initiating, bool active, bool uses_tac, bool drops)
{
    struct record record = {{0}, TACIT_RECORD_LENGTH};
    CHECK(create(&record,
                 (struct tacit_settings){.initiating = initiating, .active = active,
                                         .uses_tac = uses_tac, .drops = drops,
                                         .enabled = APP(4) | APP(7), .first_number = 1,
                                         .capabilities = TACIT_CAPABILITY_P2MP}) == 0);
    return load(&record).session;
}

/* Fresh sessions as a responder on a ring has them: responding and passive. */
static struct sessions responders(size_t length)
{
    struct sessions row = {.length = length};
    for (size_t i = 0; i < length; i++)
        row.at[i] = session_of(false, false, true, false);
    return row;
}

/* Sessions that use 4, then such that use 7, and last a fresh one. */
static struct sessions with_users(size_t of_4, size_t of_7)
{
    struct sessions row = responders(of_4 + of_7 + 1);
    for (size_t i = 0; i < of_4 + of_7; i++)
        CHECK(row_initialization(&row, i, tacit_no_limits(), i < of_4 ? lists_4 : lists_7)
                  .outcome == TACIT_DONE);
    CHECK(row_count(&row, 4).count == of_4 && row_count(&row, 7).count == of_7);
    return row;
}

/* By hand, since tacit_set_limit lets no limit over 64 through. */
static struct tacit_limits limits_of(uint8_t of_4, uint8_t of_7)
{
    struct tacit_limits limits = tacit_no_limits();
    limits.of[4 - 1] = of_4;
    limits.of[7 - 1] = of_7;
    return limits;
}

/* ---- Limits ---- */

static void setting(void)
{
    struct tacit_limits limits = tacit_no_limits();
    for (uint32_t ta_id = 1; ta_id <= TACIT_APPLICATIONS; ta_id++)
        CHECK(limits.of[ta_id - 1] == 64);
    for (uint32_t ta_id = 1; ta_id <= TACIT_APPLICATIONS; ta_id++) {
        for (uint32_t limit = 0; limit <= 64; limit++) {
            trying("limit %lu for %lu", (unsigned long)limit, (unsigned long)ta_id);
            CHECK(set_limit(limits, ta_id, limit).refusal == 0);
        }
        limits = set_limit(limits, ta_id, 64 - ta_id).limits;
    }
    for (uint32_t ta_id = 1; ta_id <= TACIT_APPLICATIONS; ta_id++)
        CHECK(limits.of[ta_id - 1] == 64 - ta_id);
    /* 6 before 12. */
    CHECK(set_limit(limits, 0, 64).refusal == 6 && set_limit(limits, 14, 64).refusal == 6);
    CHECK(set_limit(limits, 0, 65).refusal == 6 && set_limit(limits, 14, 65).refusal == 6);
    CHECK(set_limit(limits, 1, 65).refusal == 12 && set_limit(limits, 13, 65).refusal == 12);
    /* The others stay as handed in, also those over 64. */
    limits = limits_of(65, 255);
    CHECK(set_limit(limits, 1, 0).limits.of[4 - 1] == 65);
    CHECK(set_limit(limits, 1, 65).limits.of[7 - 1] == 255);
}

/* Open, in force, enabled and listed: a session that lacks one of these uses nothing. */
static void counting(void)
{
    static const struct {
        uint32_t of_4, of_7;
        const char *record;
    } rows[] = {
        {1, 1, "1600 0200 01 14 4800 4800 0000 00 00 00000000 01000000 00 00"},
        {1, 0, "1600 0200 01 34 4800 0800 0000 00 00 00000000 01000000 00 00"},
        {0, 1, "1600 0200 01 14 4000 4800 0000 00 00 00000000 01000000 00 00"},
        {1, 0, "1600 0200 01 14 0810 4810 0000 00 00 00000000 01000000 00 00"},
        {0, 0, "1600 0200 01 14 4810 0010 0000 00 00 00000000 01000000 00 00"},
        /* With every kind disabled it is still used. */
        {1, 1, "1600 0200 01 14 4800 4800 0000 0F 00 00000000 01000000 00 00"},
        /* Not in force, TAC used or not; Ready, Held, Gone. */
        {0, 0, "1600 0200 01 04 4800 0000 0000 00 00 00000000 01000000 00 00"},
        {0, 0, "1600 0200 01 00 4800 0000 0000 00 00 00000000 01000000 00 00"},
        {0, 0, "1600 0200 00 04 4800 0000 0000 00 00 00000000 01000000 00 00"},
        {0, 0, "1600 0200 02 06 4800 0000 0000 00 00 00000000 01000000 00 00"},
        {0, 0, "1600 0200 03 0F 4800 0000 0000 00 00 00000000 01000000 00 00"},
    };
    const size_t count = sizeof rows / sizeof *rows;
    struct sessions row = {.length = count};
    uint32_t of_4 = 0, of_7 = 0;
    for (size_t i = 0; i < count; i++) {
        trying("record %s", rows[i].record);
        struct record record = record_of(rows[i].record);
        struct sessions alone = {.at = {load(&record).session}, .length = 1};
        CHECK(row_count(&alone, 4).count == rows[i].of_4);
        CHECK(row_count(&alone, 7).count == rows[i].of_7);
        row.at[i] = alone.at[0];
        of_4 += rows[i].of_4;
        of_7 += rows[i].of_7;
    }
    CHECK(row_count(&row, 4).count == of_4 && row_count(&row, 7).count == of_7);
    CHECK(row_count(&row, 13).count == 2 && row_count(&row, 1).count == 0);
}

struct opening {
    uint8_t limit_4, limit_7;  /* the limits of 4 and 7 */
    uint8_t of_4, of_7;        /* how many sessions use them */
    const char *area;          /* of the next Initialization */
    uint8_t outcome;
};

static const struct opening all_openings[] = {
    {2, 64, 0, 0, lists_4, TACIT_DONE},
    {2, 64, 1, 0, lists_4, TACIT_DONE},
    {2, 64, 2, 0, lists_4, TACIT_AT_LIMIT},
    {2, 64, 3, 0, lists_4, TACIT_AT_LIMIT},
    {1, 64, 1, 5, lists_4, TACIT_AT_LIMIT},
    {0, 64, 0, 0, lists_4, TACIT_AT_LIMIT},
    /* The other application has a limit of its own. */
    {2, 64, 2, 0, lists_7, TACIT_DONE},
    {2, 0, 1, 0, lists_4, TACIT_DONE},
    {64, 3, 5, 3, lists_7, TACIT_AT_LIMIT},
    /* One common application with room is enough. */
    {2, 3, 2, 3, lists_both, TACIT_AT_LIMIT},
    {2, 3, 1, 3, lists_both, TACIT_DONE},
    {2, 3, 2, 2, lists_both, TACIT_DONE},
    {0, 64, 0, 0, lists_both, TACIT_DONE},
    {0, 0, 0, 0, lists_both, TACIT_AT_LIMIT},
    /* Listed and not enabled here, unknown, or listed twice: that gives no room. */
    {2, 64, 2, 0, "850F000D 80 00058000 00048000 000E8000", TACIT_AT_LIMIT},
    {2, 64, 2, 0, "850F0009 80 00040000 00048000", TACIT_AT_LIMIT},
    /* Without a common application, or out of force, no limit is asked. */
    {0, 0, 0, 0, lists_none, TACIT_MISMATCH},
    {0, 0, 0, 0, "850F0005 80 00058000", TACIT_MISMATCH},
    {2, 2, 2, 2, lists_none, TACIT_MISMATCH},
    {0, 0, 0, 0, no_tac, TACIT_DONE},
    {0, 0, 0, 0, "", TACIT_DONE},
    /* 64, and what acts as 64. */
    {64, 64, 63, 0, lists_4, TACIT_DONE},
    {63, 64, 63, 0, lists_4, TACIT_AT_LIMIT},
    {63, 64, 62, 0, lists_4, TACIT_DONE},
    {65, 0, 63, 0, lists_4, TACIT_DONE},
    {128, 0, 63, 0, lists_both, TACIT_DONE},
    {255, 0, 63, 0, lists_4, TACIT_DONE},
};

static void expect_opening(const struct opening *wanted)
{
    trying("limits %u and %u, used by %u and %u, area %s", wanted->limit_4, wanted->limit_7,
           wanted->of_4, wanted->of_7, wanted->area);
    struct sessions row = with_users(wanted->of_4, wanted->of_7);
    size_t last = row.length - 1;
    struct tacit_limits limits = limits_of(wanted->limit_4, wanted->limit_7);
    struct tacit_answer answer = row_initialization(&row, last, limits, wanted->area);
    CHECK(answer.refusal == 0 && answer.outcome == wanted->outcome);
    CHECK(answer.lost == 0 && answer.written == 0);
    bool done = wanted->outcome == TACIT_DONE;
    CHECK(row.at[last].state == (done ? TACIT_OPEN : TACIT_READY));
    CHECK((answer.gained != 0) == done);
}

static void openings(void)
{
    for (size_t i = 0; i < sizeof all_openings / sizeof *all_openings; i++)
        expect_opening(&all_openings[i]);
}

/* Turned away, a session is left as a mismatch leaves it, by what the end is. */
static void turned_away(void)
{
    for (unsigned ends = 0; ends < 8; ends++) {
        bool initiating = ends & 1, active = ends & 2, drops = ends & 4;
        trying("initiating %d, active %d, drops %d", initiating, active, drops);
        uint8_t wanted = !active ? TACIT_READY : initiating && drops ? TACIT_GONE : TACIT_HELD;
        struct sessions row = {.at = {session_of(initiating, active, true, drops)}, .length = 1};
        row_hello(&row, 0, 5);
        struct sessions told = row;
        row_mismatch(&told, 0);
        struct tacit_answer answer =
            row_initialization(&row, 0, nobody,
                               ALL_THREE "85060001 80 850F0005 80 00048000 850D0002 80 C0");
        CHECK(answer.refusal == 0 && answer.outcome == TACIT_AT_LIMIT);
        CHECK(answer.lost == 0 && answer.gained == 0 && answer.written == 0);
        CHECK(row.at[0].state == wanted && same_session(row.at[0], told.at[0]));
        CHECK(tacit_session_retry(row.at[0]).interval == (wanted == TACIT_HELD ? 65535 : 0));
        CHECK(tacit_session_kinds(row.at[0]).kinds == 0);
        CHECK(row_count(&row, 4).count == 0);
        /* It comes back by a Hello where it waits for one, and opens once there is room. */
        CHECK(row_hello(&row, 0, 6).outcome == TACIT_DONE);
        CHECK(row_initialization(&row, 0, tacit_no_limits(), lists_4).outcome == TACIT_DONE);
        CHECK(row_count(&row, 4).count == 1);
    }
}

/* Once open all common applications are negotiated, so a count may pass its limit. */
static void past_the_limit(void)
{
    struct sessions row = with_users(2, 0);
    struct tacit_limits limits = limits_of(2, 64);
    struct tacit_answer answer = row_initialization(&row, 2, limits, lists_both);
    CHECK(answer.outcome == TACIT_DONE);
    CHECK(answer.gained == (TACIT_KIND_SET(0) | TACIT_KIND_SET(8)));
    CHECK(row_count(&row, 4).count == 3 && row_count(&row, 7).count == 1);
    /* One fewer, and it is at its limit still; two fewer, and there is room. */
    CHECK(row_closed(&row, 0).outcome == TACIT_DONE);
    CHECK(row_initialization(&row, 0, limits, lists_4).outcome == TACIT_AT_LIMIT);
    CHECK(row_closed(&row, 2).outcome == TACIT_DONE);
    CHECK(row_initialization(&row, 0, limits, lists_4).outcome == TACIT_DONE);
    CHECK(row_count(&row, 4).count == 2 && row_count(&row, 7).count == 0);
}

/* Every other event goes by no limit, and a limit turns no open session out. */
static void read_at_initialization(void)
{
    uint8_t room[17] = {0};
    struct sessions row = with_users(1, 0);
    CHECK(row_initialization(&row, 1, nobody, no_tac).outcome == TACIT_DONE);
    CHECK(row_count(&row, 4).count == 1);
    CHECK(row_capability(&row, 1, lists_4).outcome == TACIT_DONE);
    CHECK(row_count(&row, 4).count == 2);
    CHECK(row_capability(&row, 1, "850F0005 80 00078000").outcome == TACIT_DONE);
    CHECK(row_count(&row, 7).count == 1);
    CHECK(row_local_change(&row, 1, 7, false, room, sizeof room).written == 17);
    CHECK(row_count(&row, 7).count == 0);
    CHECK(row_local_change(&row, 1, 7, true, room, sizeof room).written == 17);
    CHECK(row_count(&row, 7).count == 1);
    CHECK(row_hello(&row, 1, 9).outcome == TACIT_DONE);
    CHECK(row.at[0].state == TACIT_OPEN && row.at[1].state == TACIT_OPEN);
    CHECK(row_capability(&row, 1, "850F0001 00").outcome == TACIT_DONE);
    CHECK(row_count(&row, 4).count == 1 && row_count(&row, 7).count == 0);
    CHECK(row_mismatch(&row, 1).outcome == TACIT_MISMATCH);
    CHECK(row_closed(&row, 0).outcome == TACIT_DONE);
    CHECK(row_count(&row, 4).count == 0);
}

/* A session without TAC is not limited and counts for none. */
static void without_tac(void)
{
    struct sessions row = {.at = {session_of(false, false, false, false)}, .length = 1};
    struct tacit_answer answer = row_initialization(&row, 0, nobody, lists_4);
    CHECK(answer.outcome == TACIT_DONE && answer.gained == FREE_KINDS);
    CHECK(row_count(&row, 4).count == 0);
}

/* ---- Refusals ---- */

/* Each cause in turn is taken away, and the next one is given. */
static void order(void)
{
    static uint8_t over[4097] = {0x06, 0x00, 0xFF, 0xFF};
    struct sessions row = responders(3);
    row.at[0].flags |= 0x80;
    struct row_call call = {.at = 3,
                            .event = {.which = TACIT_EVENT_INITIALIZATION},
                            .area = over,
                            .area_length = sizeof over};
    CHECK(row_event(&row, call).refusal == 11);
    call.at = 1;
    CHECK(row_event(&row, call).refusal == 10);
    CHECK(row_count(&row, 14).refusal == 10);
    row.at[0].flags &= 0x7F;
    CHECK(row_count(&row, 14).refusal == 6);
    row.at[1] = with_users(1, 0).at[0];
    CHECK(row_event(&row, call).refusal == 7);
    row = responders(3);
    CHECK(row_event(&row, call).refusal == 1);
    call.area_length = 4;
    CHECK(row_event(&row, call).refusal == 2);
    over[2] = over[3] = 0;
    CHECK(row_event(&row, call).refusal == 4);
    over[2] = over[3] = 0xFF;
    /* What is refused is not turned away first, though no limit leaves room. */
    CHECK(row_initialization(&row, 1, nobody, "850F0005 80 00048000 850F0000").refusal == 5);
    CHECK(row_initialization(&row, 1, nobody, "850F0005 80 00048000 85060000").refusal == 3);
    CHECK(row_initialization(&row, 1, nobody, lists_4).outcome == TACIT_AT_LIMIT);
}

static void order_of_local_changes(void)
{
    uint8_t room[17] = "sixteen and one.";
    struct sessions row = with_users(0, 1);
    row.at[1].disabled = 1;
    CHECK(row_local_change(&row, 2, 14, true, room, 0).refusal == 11);
    CHECK(row_local_change(&row, 0, 14, true, room, 0).refusal == 10);
    row.at[1].disabled = 0;
    CHECK(row_local_change(&row, 0, 14, true, room, 0).refusal == 6);
    CHECK(row_local_change(&row, 0, 7, true, room, 0).outcome == TACIT_UNCHANGED);
    CHECK(row_local_change(&row, 0, 4, false, room, 16).refusal == 8);
    row.at[0].flags &= (uint8_t)~TACIT_FLAG_PEER_DYNAMIC;
    CHECK(row_local_change(&row, 0, 4, false, room, 0).refusal == 9);
    CHECK(memcmp(room, "sixteen and one.", sizeof room) == 0);
    row.at[0].flags |= TACIT_FLAG_PEER_DYNAMIC;
    CHECK(row_local_change(&row, 0, 7, false, room, 17).outcome == TACIT_MISMATCH);
    CHECK(memcmp(room, "sixteen and one.", sizeof room) == 0);
}

/* The six events in each state, and a number that is no event's. */
static void states(void)
{
    static const uint8_t wanted[4][7] = {
        [TACIT_READY] = {0, 7, 0, 0, 0, 7, 7},
        [TACIT_OPEN] = {7, 0, 0, 0, 0, 0, 7},
        [TACIT_HELD] = {7, 7, 0, 7, 0, 7, 7},
        [TACIT_GONE] = {7, 7, 0, 7, 0, 7, 7},
    };
    for (uint8_t state = 0; state < 4; state++) {
        for (uint32_t which = 0; which < 7; which++) {
            trying("event %lu in %s", (unsigned long)which, tacit_state_text(state));
            struct sessions row = {.length = 2};
            row.at[0] = row.at[1] = session_of(true, true, true, state == TACIT_GONE);
            if (state == TACIT_OPEN)
                row_initialization(&row, 1, tacit_no_limits(), lists_both);
            if (state >= TACIT_HELD)
                row_mismatch(&row, 1);
            CHECK(row.at[1].state == state);
            uint8_t room[17] = {0};
            struct row_call call = {.at = 1,
                                    .event = {which, 5, 1, 9},
                                    .limits = tacit_no_limits(),
                                    .room = room,
                                    .room_length = sizeof room};
            CHECK(row_event(&row, call).refusal == wanted[state][which]);
        }
    }
}

/* One session that is not sound, wherever it is, refuses every event. */
static void expect_unsound(struct tacit_session session)
{
    struct record record = {{7}, TACIT_RECORD_LENGTH};
    CHECK(store(session, &record) == 10);
    CHECK(tacit_session_kinds(session).refusal == 10 && tacit_session_kinds(session).kinds == 0);
    CHECK(tacit_session_retry(session).refusal == 10);
    CHECK(tacit_session_retry(session).interval == 0);
    for (size_t place = 0; place < 3; place++) {
        struct sessions row = responders(3);
        row.at[place] = session;
        CHECK(row_count(&row, 4).refusal == 10 && recount(&row).refusal == 10);
        for (uint32_t which = 0; which < 7; which++) {
            struct row_call call = {.at = 1, .event = {which, 5, 1, 9}};
            CHECK(row_event(&row, call).refusal == 10);
        }
    }
}

static void unsound_anywhere(void)
{
    static const struct tacit_session rows[] = {
        {.state = 4, .flags = 0x04},
        {.state = TACIT_NO_STATE},
        {.flags = 0x80},
        {.flags = 0x04, .enabled = 0x2000},
        {.flags = 0x04, .protects = 0x400},
        {.state = TACIT_OPEN, .flags = 0x04, .disabled = 0x10},
        {.state = TACIT_OPEN, .flags = 0x14, .enabled = 0x48, .listed = 0x2048},
        {.state = TACIT_OPEN, .flags = 0x14, .enabled = 0x48, .listed = 0x01},
        {.state = TACIT_OPEN, .flags = 0x10, .enabled = 0x48, .listed = 0x48},
        {.state = TACIT_READY, .flags = 0x14, .enabled = 0x48, .listed = 0x48},
        {.state = TACIT_OPEN, .flags = 0x04, .enabled = 0x48, .listed = 0x48},
        {.flags = 0x04, .disabled = 1},
        {.flags = 0x24},
        {.flags = 0x04, .hello = 1},
        {.state = TACIT_HELD, .flags = 0x04},
        {.state = TACIT_HELD, .flags = 0x0F},
        {.state = TACIT_GONE, .flags = 0x07},
        {.state = TACIT_GONE, .flags = 0x4F},
        {.flags = 0x04, .ours = 0x08},
        {.flags = 0x04, .theirs = 0x01},
        {.state = TACIT_OPEN, .flags = 0x04, .ours = 0x80},
        {.state = TACIT_OPEN, .flags = 0x04, .ours = 0x07, .theirs = 0x08},
        {.state = TACIT_HELD, .flags = 0x06, .ours = 0x07, .theirs = 0x02},
        {.state = TACIT_GONE, .flags = 0x0F, .ours = 0x07, .theirs = 0x04},
    };
    for (size_t i = 0; i < sizeof rows / sizeof *rows; i++) {
        trying("session %zu that is not sound", i);
        expect_unsound(rows[i]);
    }
}

/* ---- What an event leaves alone ---- */

/* What the event does not read may be anything: area, room and limits. */
static void not_read(void)
{
    static uint8_t over[4097] = {0x06, 0x00, 0xFF, 0xFF};
    uint8_t room[17] = "sixteen and one.";
    struct row_call call = {.at = 0,
                            .area = over,
                            .area_length = sizeof over,
                            .room = room,
                            .room_length = sizeof room};
    for (uint32_t which = TACIT_EVENT_LOCAL_CHANGE; which <= TACIT_EVENT_CLOSED; which++) {
        trying("event %lu", (unsigned long)which);
        struct sessions row = with_users(1, 0);
        struct tacit_event event = {which, 5, 1, 9};
        call.event = event;
        CHECK(row_event(&row, call).refusal == 0);
        CHECK((memcmp(room, "sixteen and one.", sizeof room) == 0) ==
              (which != TACIT_EVENT_LOCAL_CHANGE));
        memcpy(room, "sixteen and one.", sizeof room);
    }
}

/* A row that is a part of a longer array: what stands before and behind it is not there. */
static void neighbours(void)
{
    struct sessions users = with_users(4, 0);
    const struct tacit_session before[6] = {
        users.at[0], users.at[4], users.at[1], users.at[2], users.at[3], {.state = TACIT_NO_STATE},
    };
    struct tacit_session all[6], *row = all + 1;
    uint8_t room[17];
    memcpy(all, before, sizeof all);
    /* Two in the row use 4; with those around it there would be four, or no sound row. */
    CHECK(tacit_row_count(row, 3, 4).count == 2);
    struct tacit_totals totals = tacit_recount(row, 3).totals;
    CHECK(totals.of[0] == 2 && totals.of[8] == 0);
    struct octets area = hex(lists_4);
    struct tacit_limits limits = limits_of(3, 0);
    CHECK(tacit_row_initialization(row, 3, 0, limits, &totals, area.at, area.length).outcome ==
          TACIT_DONE);
    CHECK(tacit_row_count(row, 3, 4).count == 3 && totals.of[0] == 3);
    CHECK(tacit_row_capability(row, 3, 0, &totals, area.at, area.length).outcome == TACIT_DONE);
    CHECK(tacit_row_local_change(row, 3, 0, &totals, 5, true, room, sizeof room).written == 17);
    CHECK(tacit_row_hello(row, 3, 0, &totals, 1).outcome == TACIT_DONE);
    CHECK(totals.of[0] == 3);
    CHECK(tacit_row_closed(row, 3, 0, &totals).lost == TACIT_KIND_SET(0));
    CHECK(tacit_row_mismatch(row, 3, 0, &totals).outcome == TACIT_MISMATCH);
    CHECK(tacit_row_hello(row, 3, 3, &totals, 1).refusal == 11);
    CHECK(tacit_row_hello(row, 3, SIZE_MAX, &totals, 1).refusal == 11);
    CHECK(same_totals(totals, tacit_recount(row, 3).totals) && totals.of[0] == 2);
    for (size_t i = 0; i < 6; i++)
        CHECK(i == 1 || same_session(all[i], before[i]));
    CHECK(row[0].state == TACIT_READY && row[0].hello == 1 && row[0].next == 2);
    CHECK(row[0].enabled == (APP(4) | APP(5) | APP(7)) && row[0].listed == 0);
}

/* ---- Sessions by themselves ---- */

static void loading_and_storing(void)
{
    static const char *const rows[] = {
        "1600 0200 00 07 4800 0000 0000 00 00 00000000 01000000 00 00",
        "1600 0200 00 4D FF1F 0000 FF03 00 00 FFFFFFFF FFFFFFFF 07 00",
        "1600 0200 01 77 C010 8010 0202 05 00 D4C3B2A1 04030201 05 06",
        "1600 0200 02 47 4800 0000 0102 00 00 05000000 01000000 02 00",
        "1600 0200 03 0F 4800 0000 0000 00 00 00000000 01000000 00 00",
    };
    for (size_t i = 0; i < sizeof rows / sizeof *rows; i++) {
        trying("record %s", rows[i]);
        struct record record = record_of(rows[i]), copy = {{7}, TACIT_RECORD_LENGTH};
        struct tacit_loaded loaded = load(&record);
        CHECK(loaded.refusal == 0);
        CHECK(store(loaded.session, &copy) == 0);
        CHECK(same_record(&copy, &record));
        CHECK(tacit_session_kinds(loaded.session).kinds == kinds(&record));
        CHECK(tacit_session_retry(loaded.session).interval == retry_interval(&record).interval);
        record.octets[13] = 1;
        CHECK(load(&record).refusal == 10);
    }
}

/* The events that a record goes through, and the same in a row. */
static void questions(void)
{
    struct sessions row = {.at = {session_of(true, true, true, false)}, .length = 1};
    CHECK(tacit_session_kinds(row.at[0]).refusal == 0);
    CHECK(tacit_session_kinds(row.at[0]).kinds == 0);
    row_initialization(&row, 0, tacit_no_limits(), lists_both);
    CHECK(tacit_session_kinds(row.at[0]).kinds == (TACIT_KIND_SET(0) | TACIT_KIND_SET(8)));
    CHECK(tacit_session_retry(row.at[0]).refusal == 0);
    CHECK(tacit_session_retry(row.at[0]).interval == 0);
    row_capability(&row, 0, "850D0002 80 C0");
    CHECK(tacit_session_kinds(row.at[0]).kinds == TACIT_KIND_SET(0));
    row_mismatch(&row, 0);
    CHECK(tacit_session_kinds(row.at[0]).kinds == 0);
    CHECK(tacit_session_retry(row.at[0]).interval == 65535);
}

void rows(void)
{
    test("limits are 64 until set", setting);
    test("who uses an application", counting);
    test("what opens under limits, row by row", openings);
    test("where being turned away leads", turned_away);
    test("a count past its limit", past_the_limit);
    test("limits are read only at Initialization", read_at_initialization);
    test("a session of a row without TAC", without_tac);
    test("the order of refusals in a row", order);
    test("refusals of local changes in a row", order_of_local_changes);
    test("events of a row in each state", states);
    test("a session that is not sound, anywhere in a row", unsound_anywhere);
    test("what an event of a row does not read", not_read);
    test("sessions before and behind a row", neighbours);
    test("sessions loaded and stored", loading_and_storing);
    test("questions to a session of a row", questions);
}
