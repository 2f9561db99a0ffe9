/* Our own disinterest: what is written, what the other end makes of it, and what is wanted. */
#include "harness.h"

#include <string.h>

#define APP(n) TACIT_APP_SET(n)

static const char dynamic[] = "85060001 80";

/* An end that uses no TAC, so that every kind of an App is permitted that is not disabled. */
static struct record other_end(void)
{
    struct record record = {{0}, TACIT_RECORD_LENGTH};
    CHECK(create(&record, (struct tacit_settings){.first_number = 1}) == 0);
    CHECK(initialization_text(&record, dynamic).outcome == TACIT_DONE);
    return record;
}

/* The kinds that these wishes disable. */
static uint32_t kinds_of(uint32_t wishes)
{
    uint32_t set = 0;
    for (uint32_t app = 1; app <= 4; app++)
        if ((wishes >> (app - 1) & 1) != 0)
            set |= TACIT_KIND_SET(kind_of(app));
    return set;
}

/* ---- What is written ---- */

static void messages(void)
{
    static const struct {
        uint32_t app;
        bool disable;
        const char *octets;
    } rows[] = {
        {1, true, "0202000A 00000007 850D0002 80 90"},
        {1, false, "0202000A 00000007 850D0002 80 10"},
        {2, true, "0202000A 00000007 850D0002 80 A0"},
        {2, false, "0202000A 00000007 850D0002 80 20"},
        {3, true, "0202000A 00000007 850D0002 80 B0"},
        {3, false, "0202000A 00000007 850D0002 80 30"},
        {4, true, "0202000A 00000007 850D0002 80 C0"},
        {4, false, "0202000A 00000007 850D0002 80 40"},
    };
    for (size_t i = 0; i < sizeof rows / sizeof *rows; i++) {
        trying("%s", rows[i].octets);
        struct record record = {{0}, TACIT_RECORD_LENGTH};
        create(&record, (struct tacit_settings){.uses_tac = true, .first_number = 7});
        initialization_text(&record, dynamic);
        struct octets wanted = hex(rows[i].octets);
        uint8_t room[16] = {[14] = 0x5A, [15] = 0x5B};
        struct tacit_wished wished = wish(&record, rows[i].disable ? 0 : 15, rows[i].app,
                                          rows[i].disable, room, sizeof room);
        CHECK(wished.answer.refusal == 0 && wished.answer.outcome == TACIT_DONE);
        CHECK(wished.answer.lost == 0 && wished.answer.gained == 0);
        CHECK(wished.answer.written == wanted.length && wanted.length == 14);
        CHECK(memcmp(room, wanted.at, wanted.length) == 0 && room[14] == 0x5A && room[15] == 0x5B);
        CHECK(wished.wishes == (rows[i].disable ? TACIT_SAC_SET(rows[i].app)
                                                : TACIT_ALL_SAC & ~TACIT_SAC_SET(rows[i].app)));
        CHECK(session_in(&record).next == 8);
    }
}

static void sacs(void)
{
    static const char *const rows[16] = {
        "",
        "850D0002 80 90",
        "850D0002 80 A0",
        "850D0003 80 90 A0",
        "850D0002 80 B0",
        "850D0003 80 90 B0",
        "850D0003 80 A0 B0",
        "850D0004 80 90 A0 B0",
        "850D0002 80 C0",
        "850D0003 80 90 C0",
        "850D0003 80 A0 C0",
        "850D0004 80 90 A0 C0",
        "850D0003 80 B0 C0",
        "850D0004 80 90 B0 C0",
        "850D0004 80 A0 B0 C0",
        "850D0005 80 90 A0 B0 C0",
    };
    for (uint32_t set = 0; set < 16; set++) {
        trying("wishes %lX", (unsigned long)set);
        struct octets wanted = hex(rows[set]);
        uint8_t room[TACIT_SAC_MOST] = {0};
        struct tacit_written answer = wish_sac(set, room, sizeof room);
        CHECK(answer.refusal == 0 && answer.written == wanted.length);
        CHECK(same(room, wanted.at, wanted.length));
    }
}

/* ---- What the other end makes of it ---- */

/* From any wishes to any other, App by App, each message read by the other end. */
static void changes_read(void)
{
    for (uint32_t both = 0; both < 256; both++) {
        uint32_t wishes = both & 15, then = both >> 4;
        trying("wishes %lX, then %lX", (unsigned long)wishes, (unsigned long)then);
        struct record here = other_end(), there = other_end();
        there.octets[12] = (uint8_t)wishes;
        for (uint32_t app = 1; app <= 4; app++) {
            uint8_t room[TACIT_WISH_LENGTH] = {0};
            bool disable = (then & TACIT_SAC_SET(app)) != 0;
            bool changes = ((wishes ^ then) & TACIT_SAC_SET(app)) != 0;
            struct tacit_wished wished = wish(&here, wishes, app, disable, room, sizeof room);
            CHECK(wished.answer.outcome == (changes ? TACIT_DONE : TACIT_UNCHANGED));
            wishes = wished.wishes;
            if (!changes)
                continue;
            struct record before = there;
            struct tacit_answer answer = capability(&there, room + TACIT_MESSAGE_AREA,
                                                    sizeof room - TACIT_MESSAGE_AREA);
            CHECK(answer.refusal == 0 && answer.outcome == TACIT_DONE);
            CHECK(answer.lost == (disable ? TACIT_KIND_SET(kind_of(app)) : 0));
            CHECK(answer.gained == (disable ? 0 : TACIT_KIND_SET(kind_of(app))));
            /* There this App has changed and nothing else. */
            before.octets[12] ^= (uint8_t)TACIT_SAC_SET(app);
            CHECK(same_record(&there, &before));
        }
        CHECK(wishes == then && there.octets[12] == then);
    }
}

/* The SAC in an Initialization, before and behind the other parameters. */
static void openings_read(void)
{
    struct octets others = hex("85060001 80 850F0009 80 00048000 00078000");
    for (uint32_t set = 0; set < 32; set++) {
        uint32_t wishes = set & 15;
        trying("wishes %lX", (unsigned long)wishes);
        uint8_t area[64] = {0};
        bool first = set < 16;
        size_t at = first ? 0 : others.length;
        struct tacit_written sac = wish_sac(wishes, area + at, TACIT_SAC_MOST);
        memcpy(area + (first ? sac.written : 0), others.at, others.length);
        struct record there = fresh(APP(4) | APP(7));
        struct tacit_answer answer = initialization(&there, area, others.length + sac.written);
        CHECK(answer.refusal == 0 && answer.outcome == TACIT_DONE);
        CHECK(there.octets[12] == wishes);
        CHECK(kinds(&there) == ((TACIT_KIND_SET(0) | TACIT_KIND_SET(8)) & ~kinds_of(wishes)));
        /* Wanted here is exactly what is not disabled there. */
        for (uint32_t kind = 0; kind <= 9; kind++)
            CHECK((is_wanted(wishes, kind).wanted == 0) ==
                  (why_not(&there, kind).reason == TACIT_DISABLED_BY_PEER));
    }
}

static void wanted_kinds(void)
{
    for (uint32_t set = 0; set < 16; set++) {
        for (uint32_t kind = 0; kind <= 9; kind++) {
            trying("wishes %lX, kind %lu", (unsigned long)set, (unsigned long)kind);
            bool disabled = (kinds_of(set) & TACIT_KIND_SET(kind)) != 0;
            CHECK(is_wanted(set, kind).refusal == 0 && is_wanted(set, kind).wanted == !disabled);
        }
    }
}

/* ---- What wishes leave alone ---- */

/* They are tested at creation and are in no record. */
static void not_stored(void)
{
    struct tacit_settings settings = {.initiating = true,
                                      .active = true,
                                      .uses_tac = true,
                                      .enabled = APP(4) | APP(7),
                                      .first_number = 1};
    struct record wanted =
        record_of("1600 0200 00 07 4800 0000 0000 00 00 00000000 01000000 00 00");
    for (settings.wishes = 0; settings.wishes < 16; settings.wishes++) {
        struct record record = {{0}, TACIT_RECORD_LENGTH};
        CHECK(create(&record, settings) == 0);
        CHECK(same_record(&record, &wanted));
    }
}

/* Neither what we permit nor the peer's own disinterest comes into it, nor the reverse. */
static void not_ours_to_send(void)
{
    uint8_t room[TACIT_WISH_LENGTH] = {0};
    struct record record = opened(APP(4) | APP(7), "85060001 80 850F0009 80 00048000 00078000"
                                                   "850D0002 80 C0");
    CHECK(kinds(&record) == TACIT_KIND_SET(0));
    CHECK(wish(&record, 0, 1, true, room, sizeof room).answer.written == 14);
    CHECK(kinds(&record) == TACIT_KIND_SET(0) && record.octets[12] == 8);
    /* The peer has disabled App 4, and that is no wish of ours. */
    CHECK(wish(&record, 1, 4, false, room, 0).answer.outcome == TACIT_UNCHANGED);
    CHECK(is_wanted(1, 8).wanted == 1 && permitted(&record, 8).permitted == 0);
    CHECK(is_wanted(1, 0).wanted == 0 && permitted(&record, 0).permitted == 1);
}

/* The connection goes and comes again: the wishes stay, and the next opening says them. */
static void outlive_open(void)
{
    uint8_t room[TACIT_WISH_LENGTH] = {0}, area[TACIT_SAC_MOST] = {0};
    struct record here = other_end(), there = other_end();
    uint32_t wishes = wish(&here, TACIT_SAC_SET(2), 1, true, room, sizeof room).wishes;
    CHECK(wishes == 3);
    CHECK(closed(&here).outcome == TACIT_DONE && closed(&there).outcome == TACIT_DONE);
    /* While it is down what is so already is Unchanged, and a change is refused. */
    CHECK(wish(&here, wishes, 1, true, room, 0).answer.outcome == TACIT_UNCHANGED);
    CHECK(wish(&here, wishes, 1, false, room, sizeof room).answer.refusal == 7);
    CHECK(is_wanted(wishes, 0).wanted == 0 && is_wanted(wishes, 1).wanted == 0);
    CHECK(wish_sac(wishes, area, sizeof area).written == 7);
    CHECK(initialization(&there, area, 7).outcome == TACIT_DONE);
    CHECK(there.octets[12] == wishes);
    /* It is Open here, but this peer has not announced Dynamic; the next one has. */
    CHECK(initialization_text(&here, "").outcome == TACIT_DONE);
    CHECK(wish(&here, wishes, 1, false, room, sizeof room).answer.refusal == 9);
    CHECK(closed(&here).outcome == TACIT_DONE);
    CHECK(initialization_text(&here, dynamic).outcome == TACIT_DONE);
    CHECK(wish(&here, wishes, 1, false, room, sizeof room).wishes == TACIT_SAC_SET(2));
    CHECK(capability(&there, room + 8, 6).gained == TACIT_KIND_SET(0));
}

/* ---- A session of a row ---- */

/* That session alone is asked and changed: its neighbours may be anything. */
static void of_a_row(void)
{
    struct record open = other_end(), ready = fresh(APP(4));
    const struct tacit_session unsound = {.state = TACIT_NO_STATE, .flags = 0xFF, .disabled = 0x77};
    const struct tacit_session before[3] = {unsound, session_in(&open), session_in(&ready)};
    struct tacit_session row[3];
    uint8_t room[TACIT_WISH_LENGTH] = "thirteen, one";
    memcpy(row, before, sizeof row);
    CHECK(tacit_session_wish(&row[0], 0, 1, true, room, sizeof room).answer.refusal == 10);
    CHECK(tacit_session_wish(&row[1], 16, 1, true, room, sizeof room).answer.refusal == 10);
    CHECK(tacit_session_wish(&row[1], 0, 5, true, room, sizeof room).answer.refusal == 15);
    CHECK(tacit_session_wish(&row[1], 0, 1, true, room, 13).answer.refusal == 8);
    CHECK(tacit_session_wish(&row[1], 1, 1, true, NULL, 0).answer.outcome == TACIT_UNCHANGED);
    CHECK(tacit_session_wish(&row[2], 0, 1, true, room, sizeof room).answer.refusal == 7);
    for (size_t i = 0; i < 3; i++)
        CHECK(same_session(row[i], before[i]));
    CHECK(memcmp(room, "thirteen, one", sizeof room) == 0);
    struct tacit_wished wished = tacit_session_wish(&row[1], 0, 1, true, room, sizeof room);
    CHECK(wished.answer.written == 14 && wished.wishes == 1 && room[13] == 0x90);
    struct tacit_session wanted = before[1];
    wanted.next++;
    CHECK(same_session(row[1], wanted));
    CHECK(same_session(row[0], before[0]) && same_session(row[2], before[2]));
}

void wishes(void)
{
    test("the message of each wish", messages);
    test("the SAC of each set of wishes", sacs);
    test("changes of wishes, read by the other end", changes_read);
    test("wishes in an Initialization, read by the other end", openings_read);
    test("wanted kinds", wanted_kinds);
    test("wishes are in no record", not_stored);
    test("wishes and what we may send", not_ours_to_send);
    test("wishes outlive Open", outlive_open);
    test("wishes of a session of a row", of_a_row);
}
