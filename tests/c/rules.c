/* The rules for lists and states, row by row. */
#include "harness.h"

#include <stdio.h>

#define APP(n) TACIT_APP_SET(n)
#define ALL 0x3FF

struct row {
    const char *first;  /* the Initialization's area */
    const char *then;   /* a Capability message's, or NULL */
    uint8_t outcome;    /* of the last */
    uint32_t kinds;     /* permitted afterwards, where both ends hold all three capabilities */
};

static void expect_row(uint32_t enabled, const struct row *row, const char *held)
{
    char area[256];
    trying("area %s%s, then %s", held, row->first, row->then ? row->then : "nothing");
    snprintf(area, sizeof area, "%s%s", held, row->first);
    struct record record = fresh(enabled);
    struct tacit_answer answer = initialization_text(&record, area);
    if (row->then != NULL) {
        CHECK(answer.refusal == 0 && answer.outcome == TACIT_DONE);
        answer = capability_text(&record, row->then);
    }
    CHECK(answer.refusal == 0 && answer.outcome == row->outcome);
    CHECK(kinds(&record) == (held[0] != 0 ? row->kinds : row->kinds & FREE_KINDS));
}

/* With a peer that holds all three capabilities, and with one that holds none. */
static void expect_rows(uint32_t enabled, const struct row *rows, size_t count)
{
    for (size_t i = 0; i < count; i++) {
        expect_row(enabled, &rows[i], ALL_THREE);
        expect_row(enabled, &rows[i], "");
    }
}

/* App 1, 2, 3, 4 is kind 0, 1, 7, 8; D is the top bit of an element. */
static void sac(void)
{
    static const struct row rows[] = {
        {"850D0002 80 90", NULL, 0, ALL & ~0x001},
        {"850D0002 80 A0", NULL, 0, ALL & ~0x002},
        {"850D0002 80 B0", NULL, 0, ALL & ~0x080},
        {"850D0002 80 C0", NULL, 0, ALL & ~0x100},
        {"850D0005 80 90 A0 B0 C0", NULL, 0, ALL & ~0x183},
        {"850D0005 80 80 D0 E0 F0", NULL, 0, ALL},
        /* D = 0 does nothing in an Initialization, in any order. */
        {"850D0002 80 10", NULL, 0, ALL},
        {"850D0003 80 90 10", NULL, 0, ALL & ~0x001},
        {"850D0003 80 10 90", NULL, 0, ALL & ~0x001},
        /* The first octet is no element, and S is not read; nor are the unused bits. */
        {"850D0002 90 00", NULL, 0, ALL},
        {"850D0002 00 90", NULL, 0, ALL & ~0x001},
        {"850D0002 80 9F", NULL, 0, ALL & ~0x001},
        {"850D0002 80 1F", NULL, 0, ALL},
        /* In a Capability message the later one holds. */
        {"", "850D0003 80 90 10", 0, ALL},
        {"", "850D0003 80 10 90", 0, ALL & ~0x001},
        {"850D0002 80 90", "850D0003 80 A0 10", 0, ALL & ~0x002},
        {"850D0003 80 90 C0", "850D0002 00 10", 0, ALL & ~0x100},
        {"850D0002 80 90", "850D0005 80 00 50 60 70", 0, ALL & ~0x001},
        {"850D0002 80 90", "", 0, ALL & ~0x001},
        /* SAC takes kinds away from what is negotiated, and adds none. */
        {"850F0009 80 00048000 00078000 850D0002 80 C0", NULL, 0, 0x001},
        {"850F0005 80 00048000 850D0003 80 40 20", NULL, 0, 0x001},
        {"850F0005 80 00048000", "850D0003 80 40 20", 0, 0x001},
        {"850F0005 80 00048000 850D0002 80 90", NULL, 0, 0},
    };
    expect_rows(APP(4) | APP(7), rows, sizeof rows / sizeof *rows);
}

static void tac(void)
{
    static const struct row rows[] = {
        /* In an Initialization S and E are not read, nor the reserved bits. */
        {"850F0005 00 00048000", NULL, 0, 0x001},
        {"850F0005 80 00040000", NULL, 0, 0x001},
        {"850F0005 7F 00047FFF", NULL, 0, 0x001},
        {"850F0009 80 00040000 00048000", NULL, 0, 0x001},
        {"850F0009 80 00070000 00040000", NULL, 0, 0x101},
        /* Identifiers have 16 bits, and those that mean nothing are skipped. */
        {"850F0009 80 01048000 00078000", NULL, 0, 0x100},
        {"850F0009 80 00008000 000E8000", NULL, 2, 0},
        {"850F0005 80 00058000", NULL, 2, 0},
        {"850F0001 80", NULL, 2, 0},
        /* In a Capability message E = 1 adds and E = 0 removes; of equals the first decides. */
        {"850F0005 80 00048000", "850F0005 80 00078000", 0, 0x101},
        {"850F0009 80 00048000 00078000", "850F0005 80 00040000", 0, 0x100},
        {"850F0009 80 00048000 00078000", "850F0009 80 00040000 00048000", 0, 0x100},
        {"850F0005 80 00048000", "850F0009 80 00078000 00070000", 0, 0x101},
        {"850F0005 80 00048000", "850F0009 80 00047FFF 00078000", 0, 0x100},
        /* However far back it stood, and whatever its E was. */
        {"850F0009 80 00048000 00078000", "850F000D 80 00040000 00078000 00048000", 0, 0x100},
        {"850F0009 80 00048000 00078000", "850F000D 80 00048000 00070000 00040000", 0, 0x001},
        {"850F0005 80 00048000", "850F0011 80 00070000 00098000 00078000 00078000", 0, 0x001},
        /* An unknown one is not remembered as the known one with its low bits. */
        {"850F0009 80 00048000 00078000", "850F0009 80 00148000 00040000", 0, 0x100},
        {"850F0009 80 00048000 00078000", "850F0009 80 01048000 00040000", 0, 0x100},
        {"850F0009 80 00048000 00078000", "850F000D 80 00008000 FFFF8000 00040000", 0, 0x100},
        {"850F0005 80 00048000", "850F0005 80 00040000", 2, 0},
        {"850F0005 80 00048000", "850F0001 80", 0, 0x001},
        {"850F0005 80 00048000", "850F0005 80 00018000", 0, 0x001},
        {"850F0005 80 00048000", "", 0, 0x001},
        /* S = 0 ends the negotiation, whatever the elements are. */
        {"850F0005 80 00048000", "850F0001 7F", 0, ALL},
        {"850F0005 80 00048000", "850F0005 00 00078000", 0, ALL},
        {"", "850F0005 00 00040000", 0, ALL},
        /* S = 1 begins it with an empty list. */
        {"", "850F0005 80 00048000", 0, 0x001},
        {"", "850F0005 80 00040000", 2, 0},
        {"", "850F0001 80", 2, 0},
        /* Both in one message. */
        {"850F0005 80 00048000", "850D0002 80 C0 850F0005 80 00078000", 0, 0x001},
        {"850F0009 80 00048000 00078000", "850F0005 80 00040000 850D0002 80 C0", 0, 0},
    };
    expect_rows(APP(4) | APP(7), rows, sizeof rows / sizeof *rows);
}

/* A list that was given up is not remembered when negotiation begins again. */
static void given_up(void)
{
    struct record record = opened(APP(4) | APP(7), ALL_THREE "850F0009 80 00048000 00078000");
    CHECK(capability_text(&record, "850F0001 00").gained == (ALL & ~0x101));
    CHECK(capability_text(&record, "850F0005 80 00078000").outcome == TACIT_DONE);
    CHECK(kinds(&record) == 0x100);
}

/* Without TAC a list has no effect; a bad one is refused all the same. */
static void without_tac(void)
{
    struct record record = {{0}, TACIT_RECORD_LENGTH};
    create(&record,
           (struct tacit_settings){.initiating = true, .active = true, .enabled = APP(4),
                                   .first_number = 1, .capabilities = TACIT_ALL_CAPABILITIES});
    CHECK(initialization_text(&record, ALL_THREE "850F0001 80 850D0002 80 90").outcome ==
          TACIT_DONE);
    CHECK(kinds(&record) == (ALL & ~0x001));
    CHECK(capability_text(&record, "850F0005 80 00040000").outcome == TACIT_DONE);
    CHECK(capability_text(&record, "850F0004 80 000400").refusal == 3);
    CHECK(kinds(&record) == (ALL & ~0x001));
    CHECK(mismatch(&record).outcome == TACIT_MISMATCH);
    CHECK(state(&record) == TACIT_HELD);
}

/* An Initialization decides whether the peer is dynamic, by the TLV alone. */
static void dynamic(void)
{
    uint8_t room[17] = {0};
    struct record record = opened(APP(4), "85060001 00 850F0005 80 00048000");
    CHECK(local_change(&record, 5, true, room, sizeof room).written == 17);
    record = opened(APP(4), "850F0005 80 00048000");
    CHECK(capability_text(&record, "85060001 80").outcome == TACIT_DONE);
    CHECK(local_change(&record, 5, true, room, sizeof room).refusal == 9);
    /* It is asked also where negotiation is not in force, and then written. */
    record = opened(APP(4), "");
    CHECK(local_change(&record, 5, true, room, sizeof room).refusal == 9);
    record = opened(APP(4), ALL_THREE "85060001 80");
    CHECK(local_change(&record, 4, false, room, sizeof room).written == 17);
    CHECK(kinds(&record) == ALL);
}

static void held_and_gone(void)
{
    struct record record = fresh(APP(4));
    mismatch(&record);
    CHECK(local_change(&record, 4, true, NULL, 0).outcome == TACIT_UNCHANGED);
    CHECK(state(&record) == TACIT_HELD);
    CHECK(local_change(&record, 7, true, NULL, 0).outcome == TACIT_DONE);
    CHECK(state(&record) == TACIT_READY);

    create(&record,
           (struct tacit_settings){.initiating = true, .active = true, .uses_tac = true,
                                   .drops = true, .enabled = APP(4), .first_number = 1});
    mismatch(&record);
    CHECK(local_change(&record, 7, true, NULL, 0).outcome == TACIT_DONE);
    CHECK(state(&record) == TACIT_GONE);
    CHECK(hello(&record, 0).outcome == TACIT_DONE);
    CHECK(state(&record) == TACIT_READY);
}

/* What the peer said is forgotten on the way out of Open; our side is not. */
static void left(void)
{
    struct record record =
        opened(APP(4) | APP(7), ALL_THREE "85060001 80 850F0005 80 00048000 850D0002 80 90");
    hello(&record, 3);
    CHECK(closed(&record).outcome == TACIT_DONE);
    struct record wanted =
        record_of("1600 0200 00 47 4800 0000 0000 00 00 03000000 01000000 07 00");
    CHECK(same_record(&record, &wanted));
    CHECK(initialization_text(&record, ALL_THREE).gained == ALL);
}

/* Session Protection opens what was protected at creation, and ICCP nothing. */
static void common_without_kinds(void)
{
    struct record record = opened(APP(8) | APP(9), "850F0009 80 00088000 00098000");
    CHECK(kinds(&record) == 0);
    CHECK(capability_text(&record, "850F0005 80 00080000").outcome == TACIT_DONE);
    CHECK(capability_text(&record, "850F0005 80 00090000").outcome == TACIT_MISMATCH);
    create(&record,
           (struct tacit_settings){.initiating = true, .active = true, .uses_tac = true,
                                   .protected_kinds = 0x2A5, .enabled = APP(8), .first_number = 1,
                                   .capabilities = TACIT_ALL_CAPABILITIES});
    initialization_text(&record, ALL_THREE "850F0005 80 00088000");
    CHECK(kinds(&record) == 0x2A5);
}

/* Why each kind may not be sent, a digit for each from kind 0 on; all capabilities are held. */
static void why(void)
{
    static const struct {
        const char *record;
        const char *reasons;
    } rows[] = {
        /* Ready, Held, Gone. */
        {"1600 0200 00 47 4800 0000 0000 00 00 05000000 01000000 07 00", "1111111111"},
        {"1600 0200 02 47 4800 0000 0000 00 00 05000000 01000000 07 00", "1111111111"},
        {"1600 0200 03 0F 4800 0000 0000 00 00 00000000 01000000 07 00", "1111111111"},
        /* Open and not in force: what is enabled does not count, nor that nothing is listed. */
        {"1600 0200 01 07 4800 0000 0000 00 00 00000000 01000000 07 07", "0000000000"},
        {"1600 0200 01 07 0000 0000 0000 00 00 00000000 01000000 07 07", "0000000000"},
        {"1600 0200 01 07 4800 0000 0000 09 00 00000000 01000000 07 07", "2000000020"},
        /* In force, 4 and 7 enabled: the peer lists 4; 4 and 6; 4 and 7. */
        {"1600 0200 01 17 4800 0800 0000 00 00 00000000 01000000 07 07", "0333333343"},
        {"1600 0200 01 17 4800 2800 0000 00 00 00000000 01000000 07 07", "0333333343"},
        {"1600 0200 01 17 4800 4800 0000 00 00 00000000 01000000 07 07", "0333333303"},
        /* 1, 4 and 7 enabled: one that is listed is enough, 12 is not one of them. */
        {"1600 0200 01 17 4900 0100 0000 00 00 00000000 01000000 07 07", "0333333343"},
        {"1600 0200 01 17 4900 4008 0000 00 00 00000000 01000000 07 07", "4333333303"},
        /* Disabled comes before not enabled and not listed. */
        {"1600 0200 01 17 4800 0800 0000 0F 00 00000000 01000000 07 07", "2233333223"},
        /* 8 and 9 enabled, kinds 0, 7 and 9 protected: the peer lists 8; 9, which opens none. */
        {"1600 0200 01 17 8001 8000 8102 00 00 00000000 01000000 07 07", "0333333030"},
        {"1600 0200 01 17 8001 0001 8102 00 00 00000000 01000000 07 07", "4333333434"},
    };
    for (size_t i = 0; i < sizeof rows / sizeof *rows; i++) {
        struct record record = record_of(rows[i].record);
        for (uint32_t kind = 0; kind <= 9; kind++) {
            trying("why not kind %lu, record %s", (unsigned long)kind, rows[i].record);
            struct tacit_reason answer = why_not(&record, kind);
            CHECK(answer.refusal == 0 && answer.reason == rows[i].reasons[kind] - '0');
        }
    }
}

/* One rule of soundness after the other, kept and broken. */
static void soundness(void)
{
    static const struct {
        bool sound;
        const char *record;
    } rows[] = {
        {true, "1600 0200 00 00 0000 0000 0000 00 00 00000000 00000000 00 00"},
        {true, "1600 0200 00 0F FF1F 0000 FF03 00 00 00000000 FFFFFFFF 00 00"},
        {false, "1500 0100 00 07 4800 0000 0000 00 00 00000000 01000000 00 00"},
        {false, "1401 0100 00 07 4800 0000 0000 00 00 00000000 01000000 00 00"},
        {false, "1400 0200 00 07 4800 0000 0000 00 00 00000000 01000000 00 00"},
        {false, "1400 0101 00 07 4800 0000 0000 00 00 00000000 01000000 00 00"},
        {false, "1600 0200 04 07 4800 0000 0000 00 00 00000000 01000000 00 00"},
        {false, "1600 0200 00 07 4800 0000 0000 00 01 00000000 01000000 00 00"},
        /* Spare bits. */
        {false, "1600 0200 00 87 4800 0000 0000 00 00 00000000 01000000 00 00"},
        {false, "1600 0200 00 07 4820 0000 0000 00 00 00000000 01000000 00 00"},
        {false, "1600 0200 00 07 4800 0000 0004 00 00 00000000 01000000 00 00"},
        {true, "1600 0200 01 17 FF1F FF1F FF03 0F 00 00000000 01000000 00 00"},
        {false, "1600 0200 01 17 FF1F FF3F FF03 0F 00 00000000 01000000 00 00"},
        {false, "1600 0200 01 17 FF1F FF1F FF03 1F 00 00000000 01000000 00 00"},
        /* In force. */
        {true, "1600 0200 01 17 4800 4000 0000 00 00 00000000 01000000 00 00"},
        {false, "1600 0200 00 17 4800 4000 0000 00 00 00000000 01000000 00 00"},
        {false, "1600 0200 02 17 4800 4000 0000 00 00 00000000 01000000 00 00"},
        {false, "1600 0200 03 1F 4800 4000 0000 00 00 00000000 01000000 00 00"},
        {false, "1600 0200 01 13 4800 4000 0000 00 00 00000000 01000000 00 00"},
        {false, "1600 0200 01 17 0800 4000 0000 00 00 00000000 01000000 00 00"},
        {false, "1600 0200 01 17 0000 4000 0000 00 00 00000000 01000000 00 00"},
        {false, "1600 0200 01 17 4800 0000 0000 00 00 00000000 01000000 00 00"},
        /* Listed. */
        {false, "1600 0200 01 07 4800 4000 0000 00 00 00000000 01000000 00 00"},
        {false, "1600 0200 00 07 4800 4000 0000 00 00 00000000 01000000 00 00"},
        /* Disabled, dynamic. */
        {true, "1600 0200 01 27 4800 0000 0000 01 00 00000000 01000000 00 00"},
        {false, "1600 0200 00 07 4800 0000 0000 01 00 00000000 01000000 00 00"},
        {false, "1600 0200 02 07 4800 0000 0000 01 00 00000000 01000000 00 00"},
        {false, "1600 0200 03 0F 4800 0000 0000 01 00 00000000 01000000 00 00"},
        {false, "1600 0200 00 27 4800 0000 0000 00 00 00000000 01000000 00 00"},
        {false, "1600 0200 02 27 4800 0000 0000 00 00 00000000 01000000 00 00"},
        {false, "1600 0200 03 2F 4800 0000 0000 00 00 00000000 01000000 00 00"},
        /* Hello. */
        {true, "1600 0200 00 47 4800 0000 0000 00 00 00000000 01000000 00 00"},
        {true, "1600 0200 00 47 4800 0000 0000 00 00 00000080 01000000 00 00"},
        {false, "1600 0200 00 07 4800 0000 0000 00 00 01000000 01000000 00 00"},
        {false, "1600 0200 00 07 4800 0000 0000 00 00 00000080 01000000 00 00"},
        /* Held: active, and not both initiating and dropping. */
        {true, "1600 0200 02 07 4800 0000 0000 00 00 00000000 01000000 00 00"},
        {true, "1600 0200 02 4E 4800 0000 0000 00 00 05000000 01000000 00 00"},
        {false, "1600 0200 02 05 4800 0000 0000 00 00 00000000 01000000 00 00"},
        {false, "1600 0200 02 0C 4800 0000 0000 00 00 00000000 01000000 00 00"},
        {false, "1600 0200 02 0F 4800 0000 0000 00 00 00000000 01000000 00 00"},
        /* Gone: all three, and no Hello. */
        {true, "1600 0200 03 0F 4800 0000 0000 00 00 00000000 01000000 00 00"},
        {true, "1600 0200 03 0B 4800 0000 0000 00 00 00000000 01000000 00 00"},
        {false, "1600 0200 03 0D 4800 0000 0000 00 00 00000000 01000000 00 00"},
        {false, "1600 0200 03 0E 4800 0000 0000 00 00 00000000 01000000 00 00"},
        {false, "1600 0200 03 07 4800 0000 0000 00 00 00000000 01000000 00 00"},
        {false, "1600 0200 03 4F 4800 0000 0000 00 00 00000000 01000000 00 00"},
    };
    for (size_t i = 0; i < sizeof rows / sizeof *rows; i++) {
        trying("record %s", rows[i].record);
        struct record record = record_of(rows[i].record);
        CHECK(record.length == TACIT_RECORD_LENGTH);
        CHECK(sound(&record) == rows[i].sound);
        hello(&record, 7);
    }
}

void rules(void)
{
    test("soundness, row by row", soundness);
    test("SAC, row by row", sac);
    test("why a kind may not be sent, row by row", why);
    test("TAC, row by row", tac);
    test("a list given up", given_up);
    test("a session without TAC", without_tac);
    test("dynamic peers", dynamic);
    test("changes and Hellos in Held and Gone", held_and_gone);
    test("what is left after Open", left);
    test("applications that open no kinds of their own", common_without_kinds);
}
