/*
 * The worked examples of the rules, by their numbers, where neither end holds a capability,
 * and the stored record.
 */
#include "harness.h"

#include <string.h>

#define APP(n) TACIT_APP_SET(n)
#define KIND(k) TACIT_KIND_SET(k)

static const char example_4[] = "850F0009 80 00048000 00078000";
static const char example_5[] = "850D0002 80 C0";

static void expect_mismatch(uint32_t enabled, const char *area)
{
    struct record record = fresh(enabled);
    struct tacit_answer answer = initialization_text(&record, area);
    CHECK(answer.refusal == 0 && answer.outcome == TACIT_MISMATCH);
    CHECK(state(&record) == TACIT_HELD);
    CHECK(retry_interval(&record).interval == 65535);
}

static void expect_refusal(uint8_t refusal, const char *area)
{
    struct record record = fresh(TACIT_ALL_APPS);
    CHECK(initialization_text(&record, area).refusal == refusal);
    CHECK(read_text(area).refusal == refusal);
}

static void example1(void)
{
    struct record record = holding(0, APP(4));
    struct tacit_answer answer = initialization_text(&record, "");
    CHECK(answer.outcome == TACIT_DONE && answer.gained == FREE_KINDS && answer.lost == 0);
    CHECK(state(&record) == TACIT_OPEN);
    CHECK(kinds(&record) == FREE_KINDS);
}

static void example2(void)
{
    struct record record = opened(APP(4) | APP(7), "850F0005 80 00048000");
    CHECK(kinds(&record) == KIND(0));
}

static void example3(void)
{
    expect_mismatch(TACIT_ALL_APPS, "850F0001 80");
}

static void example4(void)
{
    struct record record = opened(APP(7), example_4);
    CHECK(kinds(&record) == KIND(8));
}

static struct record after_example5(void)
{
    struct record record = opened_holding(0, APP(7), example_4);
    struct tacit_answer answer = capability_text(&record, example_5);
    CHECK(answer.refusal == 0 && answer.outcome == TACIT_DONE);
    CHECK(answer.lost == KIND(8) && answer.gained == 0);
    CHECK(state(&record) == TACIT_OPEN);
    return record;
}

static void example5(void)
{
    struct record record = after_example5();
    CHECK(kinds(&record) == 0);
}

static void example6(void)
{
    struct record record = after_example5();
    struct tacit_answer answer = capability_text(&record, "850D0002 80 40");
    CHECK(answer.outcome == TACIT_DONE && answer.gained == KIND(8) && answer.lost == 0);
}

static void example7(void)
{
    struct record record = opened(APP(7), example_4);
    struct tacit_answer answer = capability_text(&record, "850F0009 80 00070000 00078000");
    CHECK(answer.refusal == 0 && answer.outcome == TACIT_MISMATCH && answer.lost == KIND(8));
    CHECK(state(&record) == TACIT_HELD);
}

static void example8(void)
{
    struct record record = after_example5();
    struct tacit_answer answer = capability_text(&record, "850F0001 00");
    CHECK(answer.outcome == TACIT_DONE && answer.lost == 0);
    CHECK(answer.gained == (KIND(0) | KIND(1) | KIND(7) | KIND(9)));
}

static void example9(void)
{
    expect_refusal(3, "850F0004 80 000480");
    expect_refusal(2, "850F0005 80");
}

static void example10(void)
{
    expect_refusal(4, "06000000");
    struct record record = opened(APP(1), "86000000");
    CHECK(kinds(&record) == FREE_KINDS);
}

static void example11(void)
{
    expect_mismatch(TACIT_ALL_APPS, "850F0005 80 000E8000");
    struct record record = opened(APP(4), "850F0005 80 00040000");
    CHECK(kinds(&record) == KIND(0));
}

static void example12(void)
{
    struct record record = {{0}, TACIT_RECORD_LENGTH};
    CHECK(create(&record,
                 (struct tacit_settings){.initiating = true, .active = true, .uses_tac = true,
                                         .enabled = APP(7), .first_number = 7}) == 0);
    CHECK(initialization_text(&record, "85060001 80 850F0005 80 00078000").outcome == TACIT_DONE);
    uint8_t room[TACIT_MESSAGE_LENGTH] = {0};
    CHECK(local_change(&record, 4, true, room, 16).refusal == 8);
    struct tacit_answer answer = local_change(&record, 4, true, room, 17);
    CHECK(answer.refusal == 0 && answer.outcome == TACIT_DONE && answer.written == 17);
    struct octets wanted = hex("0202000D 00000007 850F0005 80 00048000");
    CHECK(wanted.length == sizeof room && memcmp(room, wanted.at, sizeof room) == 0);
}

static void stored(void)
{
    struct record record = holding(0, APP(4) | APP(7));
    struct record wanted =
        record_of("1600 0200 00 07 4800 0000 0000 00 00 00000000 01000000 00 00");
    CHECK(wanted.length == TACIT_RECORD_LENGTH && same_record(&record, &wanted));
}

/* One session, written out after each event. */
static void stored_on(void)
{
    struct record record = {{0}, TACIT_RECORD_LENGTH}, wanted;
    CHECK(create(&record,
                 (struct tacit_settings){.initiating = true, .active = true, .uses_tac = true,
                                         .protected_kinds = KIND(1) | KIND(9),
                                         .enabled = APP(7) | APP(8),
                                         .first_number = 0x01020304,
                                         .capabilities = 5}) == 0);
    hello(&record, 0xA1B2C3D4);
    wanted = record_of("1600 0200 00 47 C000 0000 0202 00 00 D4C3B2A1 04030201 05 00");
    CHECK(same_record(&record, &wanted));
    initialization_text(&record, "85060001 80 850D0002 80 90 850F0009 80 00088000 000D8000"
                                 "85090001 00 89020001 80");
    wanted = record_of("1600 0200 01 77 C000 8010 0202 01 00 D4C3B2A1 04030201 05 06");
    CHECK(same_record(&record, &wanted));
    CHECK(kinds(&record) == (KIND(1) | KIND(9)));
    uint8_t room[17] = {0};
    local_change(&record, 13, true, room, sizeof room);
    wanted = record_of("1600 0200 01 77 C010 8010 0202 01 00 D4C3B2A1 05030201 05 06");
    CHECK(same_record(&record, &wanted));
    mismatch(&record);
    wanted = record_of("1600 0200 02 47 C010 0000 0202 00 00 D4C3B2A1 05030201 05 00");
    CHECK(same_record(&record, &wanted));
    hello(&record, 0xA1B2C3D5);
    wanted = record_of("1600 0200 00 47 C010 0000 0202 00 00 D5C3B2A1 05030201 05 00");
    CHECK(same_record(&record, &wanted));
}

void examples(void)
{
    test("example 1: an empty area opens every kind that needs no capability", example1);
    test("example 2: a list without one of ours", example2);
    test("example 3: a TAC without elements is a mismatch", example3);
    test("example 4: a list in another order than ours", example4);
    test("example 5: SAC takes a kind away", example5);
    test("example 6: SAC gives it back", example6);
    test("example 7: the first of two equal TA-Ids decides", example7);
    test("example 8: a TAC with S = 0", example8);
    test("example 9: a wrong length, a value cut short", example9);
    test("example 10: unknown types", example10);
    test("example 11: an unknown TA-Id; E not read", example11);
    test("example 12: the message written", example12);
    test("the stored record", stored);
    test("the stored record after each of five events", stored_on);
}
