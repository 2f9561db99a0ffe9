/* Every refusal, their order, and the states that events are for. */
#include "harness.h"

#include <string.h>

#define APP(n) TACIT_APP_SET(n)

/* A record of each state. */
static struct record in_state(uint8_t wanted)
{
    struct record record = {{0}, TACIT_RECORD_LENGTH};
    CHECK(create(&record,
                 (struct tacit_settings){.initiating = true, .active = true, .uses_tac = true,
                                         .drops = wanted == TACIT_GONE, .enabled = APP(4) | APP(7),
                                         .first_number = 1}) == 0);
    if (wanted == TACIT_OPEN)
        initialization_text(&record, "85060001 80 850F0005 80 00078000");
    if (wanted == TACIT_HELD || wanted == TACIT_GONE)
        mismatch(&record);
    CHECK(state(&record) == wanted);
    return record;
}

static void of_areas(void)
{
    static const struct {
        uint8_t refusal;
        const char *area;
    } rows[] = {
        {0, ""},
        {2, "85"},
        {2, "850F"},
        {2, "850F00"},
        {3, "850F0000"},
        {0, "850F0001 80"},
        {3, "850F0002 80 00"},
        {3, "850F0003 80 0000"},
        {3, "850F0004 80 000000"},
        {0, "850F0005 80 00000000"},
        {3, "850F0006 80 00000000 00"},
        {3, "850D0000"},
        {3, "850D0001 80"},
        {0, "850D0002 80 00"},
        {0, "850D0005 80 00 00 00 00"},
        {3, "85060000"},
        {0, "85060001 00"},
        {3, "85060002 80 00"},
        /* U and F of our types are not read; the type is the other 14 bits. */
        {0, "050F0001 80"},
        {0, "450F0001 80"},
        {0, "C50F0001 80"},
        {3, "050F0000"},
        {3, "450D0001 80"},
        {3, "C5060000"},
        /* Other types. */
        {0, "05000000"},
        {0, "05FF0003 010203"},
        {0, "45800000"},
        {4, "04FF0000"},
        {4, "06000000"},
        {4, "3FFF0000"},
        {4, "40000000"},
        {0, "80000000"},
        {0, "84FF0001 00"},
        {0, "BFFF0000 BFFF0000"},
        {0, "05100000 05100000"},
        /* A second one of ours, of whatever length. */
        {5, "850F0001 80 850F0001 80"},
        {5, "850F0001 80 850F0000"},
        {5, "850D0002 80 10 850D0000"},
        {5, "85060001 80 05060002 0000"},
        /* Cut short comes first, also for a type that is refused or repeated. */
        {2, "850F0001"},
        {2, "06000001"},
        {2, "86000005 00000000"},
        {2, "850F0001 80 850F0001"},
        {2, "850F0001 80 FF"},
        {2, "850FFFFF 80"},
        /* The leftmost TLV at fault decides. */
        {3, "850F0000 06000000"},
        {4, "06000000 850F0000"},
        {3, "85060000 85"},
        {5, "85060001 80 85060001 80 06000000"},
    };
    for (size_t i = 0; i < sizeof rows / sizeof *rows; i++) {
        trying("area %s", rows[i].area);
        CHECK(read_text(rows[i].area).refusal == rows[i].refusal);
        struct record record = in_state(TACIT_READY);
        CHECK(initialization_text(&record, rows[i].area).refusal == rows[i].refusal);
        record = in_state(TACIT_OPEN);
        CHECK(capability_text(&record, rows[i].area).refusal == rows[i].refusal);
    }
}

static void of_parts(void)
{
    struct tacit_reading reading =
        read_text("86010002 AAAA 850D0003 80 10 20 85060001 80 850F0005 80 00078000");
    CHECK(reading.refusal == 0 && reading.dynamic == 1);
    CHECK(reading.sac.start == 10 && reading.sac.length == 3);
    CHECK(reading.tac.start == 22 && reading.tac.length == 5);
    reading = read_text("850F0001 80");
    CHECK(reading.tac.start == 4 && reading.tac.length == 1);
    CHECK(reading.sac.length == 0 && reading.dynamic == 0);
}

static void of_states(void)
{
    static const struct {
        uint8_t initialization, capability, mismatch, closed, wish;
    } wanted[] = {
        [TACIT_READY] = {0, 7, 0, 7, 7},
        [TACIT_OPEN] = {7, 0, 0, 0, 0},
        [TACIT_HELD] = {7, 7, 7, 7, 7},
        [TACIT_GONE] = {7, 7, 7, 7, 7},
    };
    for (uint8_t s = 0; s < 4; s++) {
        trying("state %s", tacit_state_text(s));
        struct record record = in_state(s);
        CHECK(initialization_text(&record, "").refusal == wanted[s].initialization);
        record = in_state(s);
        CHECK(capability_text(&record, "").refusal == wanted[s].capability);
        record = in_state(s);
        CHECK(mismatch(&record).refusal == wanted[s].mismatch);
        record = in_state(s);
        CHECK(closed(&record).refusal == wanted[s].closed);
        record = in_state(s);
        CHECK(hello(&record, 1).refusal == 0);
        uint8_t room[17] = {0};
        CHECK(local_change(&record, 5, true, room, sizeof room).refusal == 0);
        record = in_state(s);
        CHECK(wish(&record, 0, 1, true, room, sizeof room).answer.refusal == wanted[s].wish);
        CHECK(wish(&record, 0, 1, false, room, 0).answer.outcome == TACIT_UNCHANGED);
        CHECK(wish(&record, 1, 1, true, room, 0).answer.outcome == TACIT_UNCHANGED);
    }
}

/* 10, 7, 1, 2 in this order, by taking away one cause at a time. */
static void of_order(void)
{
    static uint8_t over[4097] = {0x06, 0x00, 0xFF, 0xFF};
    struct record record = in_state(TACIT_HELD);
    record.octets[13] = 1;
    CHECK(initialization(&record, over, sizeof over).refusal == 10);
    CHECK(capability(&record, over, sizeof over).refusal == 10);
    record.octets[13] = 0;
    CHECK(initialization(&record, over, sizeof over).refusal == 7);
    CHECK(capability(&record, over, sizeof over).refusal == 7);
    struct record ready = in_state(TACIT_READY);
    struct record open = in_state(TACIT_OPEN);
    CHECK(initialization(&ready, over, sizeof over).refusal == 1);
    CHECK(capability(&open, over, sizeof over).refusal == 1);
    CHECK(initialization(&ready, over, 3).refusal == 2);
    CHECK(capability(&open, over, 3).refusal == 2);
}

static void of_local_changes(void)
{
    struct record record = opened(APP(4) | APP(7), "850F0005 80 00078000");
    struct record broken = record;
    broken.octets[3] = 1;
    uint8_t room[17] = {0};
    CHECK(local_change(&broken, 14, true, room, 0).refusal == 10);
    CHECK(local_change(&record, 14, true, room, 0).refusal == 6);
    CHECK(local_change(&record, 4, true, room, 0).outcome == TACIT_UNCHANGED);
    CHECK(local_change(&record, 5, false, room, 0).outcome == TACIT_UNCHANGED);
    /* The peer is not dynamic, which is said before that there is no room. */
    CHECK(local_change(&record, 5, true, room, 0).refusal == 9);
    CHECK(local_change(&record, 7, false, room, 17).refusal == 9);
    /* With a dynamic peer the room is asked for, even where a mismatch follows. */
    record = in_state(TACIT_OPEN);
    CHECK(local_change(&record, 7, false, room, 16).refusal == 8);
    struct tacit_answer answer = local_change(&record, 7, false, room, 17);
    CHECK(answer.refusal == 0 && answer.outcome == TACIT_MISMATCH && answer.written == 0);
    CHECK(state(&record) == TACIT_HELD);
    /* Nothing is to be written in the other states, nor without TAC. */
    CHECK(local_change(&record, 7, true, room, 0).outcome == TACIT_DONE);
    CHECK(state(&record) == TACIT_READY);
    CHECK(create(&record, (struct tacit_settings){.enabled = APP(7), .first_number = 1}) == 0);
    initialization_text(&record, "");
    answer = local_change(&record, 7, false, room, 0);
    CHECK(answer.refusal == 0 && answer.outcome == TACIT_DONE && answer.written == 0);
    CHECK(kinds(&record) == FREE_KINDS);
}

static void of_creation(void)
{
    struct record record = {{0}, TACIT_RECORD_LENGTH};
    struct record shorter = {{0}, TACIT_RECORD_LENGTH - 1};
    const struct tacit_settings over = {
        .protected_kinds = 0x400, .enabled = 0x2000, .wishes = 0x10, .capabilities = 0x08};
    CHECK(create(&shorter, over) == 10);
    CHECK(create(&record, over) == 6);
    CHECK(create(&record, (struct tacit_settings){.protected_kinds = 0x400}) == 6);
    CHECK(create(&record, (struct tacit_settings){.enabled = 0x2000}) == 6);
    CHECK(create(&record, (struct tacit_settings){.wishes = 0x10}) == 6);
    CHECK(create(&record, (struct tacit_settings){.capabilities = 0x08}) == 6);
    CHECK(create(&record, (struct tacit_settings){.protected_kinds = 0x3FF,
                                                  .enabled = 0x1FFF,
                                                  .wishes = 0x0F,
                                                  .capabilities = 0x07}) == 0);
}

/* 10, 15, Unchanged, 7, 9, 8 in this order, by taking away one cause at a time. */
static void of_wishes(void)
{
    const uint32_t spare = UINT32_C(0x80000010);
    uint8_t room[14] = "thirteen, one";
    struct record record = in_state(TACIT_HELD);
    record.octets[13] = 1;
    CHECK(wish(&record, spare, 5, true, room, 0).answer.refusal == 10);
    CHECK(wish(&record, 0, 5, true, room, 0).answer.refusal == 10);
    record.octets[13] = 0;
    struct tacit_wished wished = wish(&record, spare, 5, true, room, 0);
    CHECK(wished.answer.refusal == 10 && wished.wishes == spare);
    CHECK(wish(&record, 0, 5, true, room, 0).answer.refusal == 15);
    CHECK(wish(&record, 0, 0, false, room, 0).answer.refusal == 15);
    CHECK(wish(&record, 2, 1, false, room, 0).answer.outcome == TACIT_UNCHANGED);
    CHECK(wish(&record, 1, 1, true, room, 0).answer.outcome == TACIT_UNCHANGED);
    wished = wish(&record, 2, 1, true, room, 0);
    CHECK(wished.answer.refusal == 7 && wished.wishes == 2);
    /* Open, and the peer is not dynamic: TAC used, then not. */
    record = opened(APP(4) | APP(7), "850F0005 80 00078000");
    CHECK(wish(&record, 1, 1, true, room, 0).answer.outcome == TACIT_UNCHANGED);
    CHECK(wish(&record, 2, 1, true, room, 0).answer.refusal == 9);
    CHECK(create(&record, (struct tacit_settings){.enabled = APP(7), .first_number = 1}) == 0);
    initialization_text(&record, "");
    CHECK(wish(&record, 2, 1, true, room, sizeof room).answer.refusal == 9);
    /* With a dynamic peer the room is asked for, but where there is nothing to write. */
    record = in_state(TACIT_OPEN);
    CHECK(wish(&record, 2, 1, true, room, 13).answer.refusal == 8);
    CHECK(wish(&record, 1, 1, true, room, 0).answer.outcome == TACIT_UNCHANGED);
    CHECK(memcmp(room, "thirteen, one", sizeof room) == 0);
    wished = wish(&record, 2, 1, true, room, 14);
    CHECK(wished.answer.refusal == 0 && wished.answer.outcome == TACIT_DONE && wished.wishes == 3);
}

/* The SAC asks 10, then 8; the question 10, then 6. Neither asks a session. */
static void of_wishes_alone(void)
{
    uint8_t room[9] = {0};
    CHECK(wish_sac(0x1F, room, 0).refusal == 10);
    CHECK(wish_sac(0x10, room, sizeof room).refusal == 10);
    CHECK(wish_sac(0x0F, room, 8).refusal == 8);
    CHECK(wish_sac(0x0F, room, 9).written == 9);
    CHECK(wish_sac(0, room, 0).refusal == 0);
    CHECK(is_wanted(0x10, 10).refusal == 10);
    CHECK(is_wanted(0x10, 0).refusal == 10);
    CHECK(is_wanted(0x0F, 10).refusal == 6);
    CHECK(is_wanted(0, 10).refusal == 6);
    CHECK(is_wanted(0x0F, 9).wanted == 1);
}

static void of_questions(void)
{
    struct record record = in_state(TACIT_OPEN);
    CHECK(permitted(&record, 8).permitted == 1);
    CHECK(permitted(&record, 9).refusal == 0);
    CHECK(permitted(&record, 10).refusal == 6);
    CHECK(why_not(&record, 9).refusal == 0);
    CHECK(why_not(&record, 10).refusal == 6);
    record.octets[5] |= 0x80;
    CHECK(permitted(&record, 8).refusal == 10);
    CHECK(permitted(&record, 10).refusal == 10);
    CHECK(permitted_kinds(&record).refusal == 10);
    CHECK(why_not(&record, 8).refusal == 10);
    CHECK(why_not(&record, 10).refusal == 10);
    CHECK(retry_interval(&record).refusal == 10);
    CHECK(!sound(&record));
}

/* Where a mismatch leads, by what the end is. */
static void where_mismatches_lead(void)
{
    for (unsigned ends = 0; ends < 8; ends++) {
        bool initiating = ends & 1, active = ends & 2, drops = ends & 4;
        trying("initiating %d, active %d, drops %d", initiating, active, drops);
        uint8_t wanted = !active ? TACIT_READY : initiating && drops ? TACIT_GONE : TACIT_HELD;
        struct record told = {{0}, TACIT_RECORD_LENGTH}, finding = told;
        create(&told,
               (struct tacit_settings){.initiating = initiating, .active = active, .uses_tac = true,
                                       .drops = drops, .enabled = APP(4), .first_number = 1});
        hello(&told, 5);
        finding = told;
        CHECK(mismatch(&told).outcome == TACIT_MISMATCH);
        CHECK(initialization_text(&finding, "850F0001 80").outcome == TACIT_MISMATCH);
        CHECK(same_record(&told, &finding));
        CHECK(state(&told) == wanted);
        /* Gone forgets its Hello, so an equal number is the first again. */
        struct tacit_answer answer = hello(&told, 5);
        CHECK(answer.outcome == (wanted == TACIT_GONE ? TACIT_DONE : TACIT_UNCHANGED));
        CHECK(state(&told) == (wanted == TACIT_GONE ? TACIT_READY : wanted));
        CHECK(hello(&told, 6).outcome == TACIT_DONE);
        CHECK(state(&told) == TACIT_READY);
    }
}

void refusals(void)
{
    test("refusals of areas", of_areas);
    test("the parts that a reading hands back", of_parts);
    test("events in each state", of_states);
    test("the order of refusals", of_order);
    test("refusals of local changes", of_local_changes);
    test("refusals of creation", of_creation);
    test("refusals of wishes", of_wishes);
    test("refusals of wishes without a session", of_wishes_alone);
    test("refusals of questions", of_questions);
    test("where mismatches lead", where_mismatches_lead);
}
