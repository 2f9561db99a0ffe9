/* Numbers of all 32 bits. */
#include "harness.h"

#include <string.h>

#define APP(n) TACIT_APP_SET(n)

/*
 * Numbers worth trying: small ones; each with every single upper bit, which
 * would be lost if a number were cut down; and many without order.
 */
#define SMALL 32
#define UPPER 27
#define OTHERS 2000
#define NUMBERS (SMALL + SMALL * UPPER + OTHERS)

static uint32_t number(unsigned i)
{
    if (i < SMALL)
        return i;
    i -= SMALL;
    if (i < SMALL * UPPER)
        return i % SMALL | UINT32_C(1) << (5 + i / SMALL);
    return any_number();
}

static void applications(void)
{
    struct record open = opened(APP(4), "85060001 80 850F0005 80 00048000");
    struct record ready = fresh(0);
    for (unsigned i = 0; i < NUMBERS; i++) {
        uint32_t ta_id = number(i);
        trying("TA-Id %lu", (unsigned long)ta_id);
        bool known = ta_id >= 1 && ta_id <= 13;
        uint8_t room[17] = {0};
        struct record record = open;
        struct tacit_answer answer = local_change(&record, ta_id, true, room, sizeof room);
        CHECK(answer.refusal == (known ? 0 : 6));
        CHECK(answer.outcome == (ta_id == 4 ? TACIT_UNCHANGED : TACIT_DONE));
        CHECK(answer.written == (known && ta_id != 4 ? 17 : 0));
        record = ready;
        answer = local_change(&record, ta_id, true, room, 0);
        CHECK(answer.refusal == (known ? 0 : 6));
        unsigned enabled = record.octets[6] | (unsigned)record.octets[7] << 8;
        CHECK(enabled == (known ? APP(ta_id) : 0));
    }
}

static void kinds_of_label(void)
{
    struct record record = opened(0, ALL_THREE);
    for (unsigned i = 0; i < NUMBERS; i++) {
        uint32_t kind = number(i);
        trying("kind %lu", (unsigned long)kind);
        struct tacit_permission answer = permitted(&record, kind);
        CHECK(answer.refusal == (kind <= 9 ? 0 : 6));
        CHECK(answer.permitted == (kind <= 9 ? 1 : 0));
        CHECK(why_not(&record, kind).refusal == answer.refusal);
        CHECK(is_wanted(0, kind).refusal == answer.refusal);
        CHECK(is_wanted(0, kind).wanted == (kind <= 9 ? 1 : 0));
        CHECK(is_wanted(TACIT_ALL_SAC, kind).refusal == answer.refusal);
    }
}

/* All ten are different, so that the total of another kind is noticed. */
static void totals_of_kinds(void)
{
    const struct tacit_totals totals = {{10, 21, 32, 43, 54, 65, 76, 187, 198, 255}};
    for (unsigned i = 0; i < NUMBERS; i++) {
        uint32_t kind = number(i);
        trying("the total of kind %lu", (unsigned long)kind);
        CHECK(kind_total(totals, kind).refusal == (kind <= 9 ? 0 : 6));
        CHECK(kind_total(totals, kind).total == (kind <= 9 ? totals.of[kind] : 0));
    }
}

/* The numbers of Apps and of TA-Ids: only four of the thirteen are an App's. */
static void sac_apps(void)
{
    struct record open = opened(APP(4), "85060001 80 850F0005 80 00048000");
    for (unsigned i = 0; i < NUMBERS; i++) {
        uint32_t app = number(i);
        trying("App %lu", (unsigned long)app);
        bool known = app >= 1 && app <= 4;
        uint8_t room[14] = {0};
        struct record record = open;
        struct tacit_wished wished = wish(&record, 0, app, true, room, sizeof room);
        CHECK(wished.answer.refusal == (known ? 0 : 15));
        CHECK(wished.answer.written == (known ? 14 : 0));
        CHECK(wished.wishes == (known ? TACIT_SAC_SET(app) : 0));
        wished = wish(&record, TACIT_ALL_SAC, app, true, room, 0);
        CHECK(wished.answer.refusal == (known ? 0 : 15));
        CHECK(wished.answer.outcome == (known ? TACIT_UNCHANGED : TACIT_DONE));
    }
}

/* Those with a bit that is no App's come back with all their bits. */
static void kept_wishes(void)
{
    struct record open = opened(APP(4), "85060001 80 850F0005 80 00048000");
    for (unsigned i = 0; i < NUMBERS; i++) {
        uint32_t wishes = number(i), app = i % 4 + 1;
        trying("wishes %08lX", (unsigned long)wishes);
        uint8_t wanted = wishes < 16 ? 0 : 10;
        uint8_t room[14] = {0};
        struct record record = open;
        struct tacit_wished wished =
            wish(&record, wishes, app, (wishes >> (app - 1) & 1) == 0, room, sizeof room);
        CHECK(wished.answer.refusal == wanted);
        CHECK(wished.wishes == (wanted == 0 ? wishes ^ TACIT_SAC_SET(app) : wishes));
        CHECK(wish_sac(wishes, room, sizeof room).refusal == wanted);
        CHECK(is_wanted(wishes, i % 10).refusal == wanted);
    }
}

static uint8_t created(uint32_t protected_kinds, uint32_t enabled, uint32_t wishes,
                       uint32_t capabilities)
{
    struct record record = {{0}, TACIT_RECORD_LENGTH};
    return create(&record, (struct tacit_settings){.uses_tac = true,
                                                   .protected_kinds = protected_kinds,
                                                   .enabled = enabled,
                                                   .wishes = wishes,
                                                   .capabilities = capabilities});
}

static void sets(void)
{
    const uint32_t kinds = TACIT_ALL_KINDS, apps = TACIT_ALL_APPS, sac = TACIT_ALL_SAC;
    const uint32_t three = TACIT_ALL_CAPABILITIES;
    for (unsigned bit = 0; bit < 32; bit++) {
        uint32_t set = UINT32_C(1) << bit;
        trying("a set with bit %u", bit);
        CHECK(created(set, 0, 0, 0) == (bit <= 9 ? 0 : 6));
        CHECK(created(0, set, 0, 0) == (bit <= 12 ? 0 : 6));
        CHECK(created(0, 0, set, 0) == (bit <= 3 ? 0 : 6));
        CHECK(created(0, 0, 0, set) == (bit <= 2 ? 0 : 6));
        CHECK(created(kinds | set, apps, sac, three) == (bit <= 9 ? 0 : 6));
        CHECK(created(kinds, apps | set, sac, three) == (bit <= 12 ? 0 : 6));
        CHECK(created(kinds, apps, sac | set, three) == (bit <= 3 ? 0 : 6));
        CHECK(created(kinds, apps, sac, three | set) == (bit <= 2 ? 0 : 6));
    }
    for (unsigned i = 0; i < OTHERS; i++) {
        struct tacit_settings settings = {.initiating = true,
                                          .uses_tac = true,
                                          .protected_kinds = any_number(),
                                          .enabled = any_number(),
                                          .wishes = any_number(),
                                          .capabilities = any_number()};
        trying("sets %08lX, %08lX, %08lX and %08lX", (unsigned long)settings.protected_kinds,
               (unsigned long)settings.enabled, (unsigned long)settings.wishes,
               (unsigned long)settings.capabilities);
        struct record record = {{0}, TACIT_RECORD_LENGTH};
        CHECK(create(&record, settings) == 6);
        settings.protected_kinds &= kinds;
        settings.enabled &= apps;
        settings.wishes &= sac;
        settings.capabilities &= three;
        CHECK(create(&record, settings) == 0);
        struct tacit_session session = session_in(&record);
        CHECK(session.enabled == settings.enabled && session.protects == settings.protected_kinds);
        CHECK(session.ours == settings.capabilities && session.theirs == 0);
        CHECK(session.disabled == 0);
    }
}

/* The kinds that each application opens, from TA-Id 1 on; 8 the protected ones. */
static const uint16_t opens[14] = {0,     0x001, 0x002, 0x07C, 0x001, 0x002, 0x080,
                                   0x100, 0x2A1, 0x000, 0x200, 0x07C, 0x001, 0x002};

/* Alone and in common, between ends that hold all three capabilities. */
static void table(void)
{
    for (uint32_t ours = 1; ours <= 13; ours++) {
        for (uint32_t theirs = 1; theirs <= 13; theirs++) {
            trying("ours %lu, the peer's %lu", (unsigned long)ours, (unsigned long)theirs);
            struct octets area = hex("850F0005 80 00008000" ALL_THREE);
            area.at[6] = (uint8_t)theirs;
            struct record record = {{0}, TACIT_RECORD_LENGTH};
            create(&record,
                   (struct tacit_settings){.initiating = true, .active = true, .uses_tac = true,
                                           .protected_kinds = opens[8], .enabled = APP(ours),
                                           .capabilities = TACIT_ALL_CAPABILITIES});
            struct tacit_answer answer = initialization(&record, area.at, area.length);
            CHECK(answer.outcome == (ours == theirs ? TACIT_DONE : TACIT_MISMATCH));
            CHECK(kinds(&record) == (ours == theirs ? opens[ours] : 0));
        }
    }
}

/* Beside 9, which opens no kind and is common, one application enabled, listed, both or neither. */
static void reasons(void)
{
    for (uint32_t ta_id = 1; ta_id <= 13; ta_id++) {
        for (unsigned sets = 0; sets < 4; sets++) {
            bool enabled = (sets & 1) != 0, listed = (sets & 2) != 0;
            struct tacit_session session = {.state = TACIT_OPEN,
                                            .flags = 0x17,
                                            .enabled = APP(9),
                                            .listed = APP(9),
                                            .protects = opens[8],
                                            .ours = TACIT_ALL_CAPABILITIES,
                                            .theirs = TACIT_ALL_CAPABILITIES,
                                            .next = 1};
            session.enabled |= (uint16_t)(enabled ? APP(ta_id) : 0);
            session.listed |= (uint16_t)(listed ? APP(ta_id) : 0);
            struct record record = record_for(session);
            for (uint32_t kind = 0; kind <= 9; kind++) {
                trying("why not kind %lu, %lu enabled %d, listed %d", (unsigned long)kind,
                       (unsigned long)ta_id, enabled, listed);
                bool some = enabled && (opens[ta_id] >> kind & 1) != 0;
                struct tacit_reason answer = why_not(&record, kind);
                CHECK(answer.refusal == 0);
                CHECK(answer.reason == (!some     ? TACIT_NOT_ENABLED
                                        : !listed ? TACIT_NOT_LISTED
                                                  : TACIT_PERMITTED));
            }
        }
    }
}

/* TA-Ids of 16 bits in a list: thirteen of them mean something. */
static void listed(void)
{
    for (uint32_t i = 0; i < 4096; i++) {
        uint32_t ta_id = i < 256 ? i : any_number() & 0xFFFF;
        trying("TA-Id %lu in a list", (unsigned long)ta_id);
        uint8_t area[9] = {0x85, 0x0F, 0, 5, 0x80, (uint8_t)(ta_id >> 8), (uint8_t)ta_id, 0, 0};
        struct record record = fresh(TACIT_ALL_APPS);
        bool known = ta_id >= 1 && ta_id <= 13;
        CHECK(initialization(&record, area, sizeof area).outcome ==
              (known ? TACIT_DONE : TACIT_MISMATCH));
    }
}

static void hellos(void)
{
    static const uint32_t rows[] = {0,          1,          2,          255,        256,
                                    65535,      65536,      0x7FFFFFFE, 0x7FFFFFFF, 0x80000000,
                                    0x80000001, 0xFFFFFFFE, 0xFFFFFFFF};
    size_t count = sizeof rows / sizeof *rows;
    for (size_t first = 0; first < count; first++) {
        for (size_t then = 0; then < count; then++) {
            trying("Hello %lu, then %lu", (unsigned long)rows[first], (unsigned long)rows[then]);
            struct record record = fresh(APP(4));
            CHECK(hello(&record, rows[first]).outcome == TACIT_DONE);
            mismatch(&record);
            struct tacit_answer answer = hello(&record, rows[then]);
            CHECK(answer.outcome == (then > first ? TACIT_DONE : TACIT_UNCHANGED));
            CHECK(state(&record) == (then > first ? TACIT_READY : TACIT_HELD));
        }
    }
    /* The first Hello is recorded, even the number 0, and wakes nobody. */
    struct record record = fresh(APP(4));
    mismatch(&record);
    CHECK(hello(&record, 0).outcome == TACIT_DONE);
    CHECK(state(&record) == TACIT_HELD);
    CHECK(hello(&record, 0).outcome == TACIT_UNCHANGED);
    CHECK(hello(&record, 1).outcome == TACIT_DONE);
    CHECK(state(&record) == TACIT_READY);
}

static void message_numbers(void)
{
    static const uint32_t rows[] = {0, 1, 255, 256, 0x00FFFFFF, 0x12345678, 0x7FFFFFFF, 0x80000000,
                                    0xFFFFFFFE, 0xFFFFFFFF};
    for (size_t i = 0; i < sizeof rows / sizeof *rows; i++) {
        trying("message number %lu", (unsigned long)rows[i]);
        struct record record = {{0}, TACIT_RECORD_LENGTH};
        CHECK(create(&record,
                     (struct tacit_settings){.initiating = true, .active = true, .uses_tac = true,
                                             .enabled = APP(4), .first_number = rows[i]}) == 0);
        initialization_text(&record, "85060001 80 850F0005 80 00048000");
        uint8_t room[17] = {0};
        /* The wrapper looks at the number in the message and at the next one. */
        for (int turn = 0; turn < 3; turn++) {
            CHECK(local_change(&record, 5, turn % 2 == 0, room, sizeof room).written == 17);
            CHECK(wish(&record, 0, 1, true, room, sizeof room).answer.written == 14);
        }
        CHECK(session_in(&record).next == (uint32_t)(rows[i] + 6));
    }
}

/* ---- Rows ---- */

static const char both[] = "85060001 80 850F0009 80 00048000 00078000";

/* Two Open sessions that enable 4 and 7 and use both. */
static struct sessions two_open(void)
{
    struct record record = opened(APP(4) | APP(7), both);
    struct sessions row = {.at = {session_in(&record), session_in(&record)},
                           .length = 2,
                           .totals = {.of = {[0] = 2, [8] = 2}}};
    return row;
}

static void event_numbers(void)
{
    static const uint8_t in_open[] = {7, 0, 0, 0, 0, 0};
    for (unsigned i = 0; i < NUMBERS; i++) {
        uint32_t which = number(i);
        trying("event %lu", (unsigned long)which);
        struct sessions row = two_open();
        uint8_t room[17] = {0};
        struct row_call call = {
            .at = 1, .event = {which, 5, 1, 9}, .room = room, .room_length = sizeof room};
        CHECK(row_event(&row, call).refusal == (which <= 5 ? in_open[which] : 7));
    }
}

/* On is any number but 0, whichever of its bits is set. */
static void on_and_off(void)
{
    for (unsigned i = 0; i < NUMBERS; i++) {
        uint32_t on = number(i);
        trying("on as %lu", (unsigned long)on);
        struct sessions row = two_open();
        uint8_t room[17] = {0};
        struct row_call call = {.at = 0,
                                .event = {TACIT_EVENT_LOCAL_CHANGE, 5, on, 9},
                                .room = room,
                                .room_length = sizeof room};
        CHECK(row_event(&row, call).outcome == (on != 0 ? TACIT_DONE : TACIT_UNCHANGED));
        CHECK(row.at[0].enabled == (APP(4) | APP(7) | (on != 0 ? APP(5) : 0)));
        call.event.ta_id = 4;
        CHECK(row_event(&row, call).outcome == (on != 0 ? TACIT_UNCHANGED : TACIT_DONE));
        CHECK(row.at[0].enabled == (APP(7) | (on != 0 ? APP(4) | APP(5) : 0)));
    }
}

static void applications_of_rows(void)
{
    const struct tacit_limits limits = tacit_no_limits();
    for (unsigned i = 0; i < NUMBERS; i++) {
        uint32_t ta_id = number(i);
        trying("TA-Id %lu in a row", (unsigned long)ta_id);
        bool known = ta_id >= 1 && ta_id <= 13;
        struct sessions row = two_open();
        CHECK(row_count(&row, ta_id).refusal == (known ? 0 : 6));
        CHECK(row_count(&row, ta_id).count == (ta_id == 4 || ta_id == 7 ? 2 : 0));
        CHECK(set_limit(limits, ta_id, ta_id).refusal == (known ? 0 : 6));
        uint8_t room[17] = {0};
        struct tacit_answer answer = row_local_change(&row, 1, ta_id, true, room, sizeof room);
        CHECK(answer.refusal == (known ? 0 : 6));
        CHECK(row.at[1].enabled == (APP(4) | APP(7) | (known ? APP(ta_id) : 0)));
    }
}

/* Also those whose lowest octet alone would be a limit. */
static void limits_to_set(void)
{
    struct tacit_limits limits;
    for (unsigned i = 0; i < TACIT_APPLICATIONS; i++)
        limits.of[i] = (uint8_t)(19 * i + 3);
    for (unsigned i = 0; i < NUMBERS; i++) {
        uint32_t limit = number(i), ta_id = i % TACIT_APPLICATIONS + 1;
        trying("limit %lu for %lu", (unsigned long)limit, (unsigned long)ta_id);
        /* The wrapper looks at the other limits, which are all different. */
        CHECK(set_limit(limits, ta_id, limit).refusal == (limit <= 64 ? 0 : 12));
    }
}

static void row_numbers(void)
{
    for (unsigned i = 0; i < NUMBERS; i++) {
        size_t at = number(i);
        if (i % 3 == 2)
            at = at << 32 | (at & 1);
        trying("row number %zu", at);
        struct sessions row = two_open();
        CHECK(row_hello(&row, at, 9).refusal == (at < 2 ? 0 : 11));
        CHECK(row.at[0].hello == (at == 0 ? 9 : 0) && row.at[1].hello == (at == 1 ? 9 : 0));
    }
}

/* All that is handed over by value differs, and only what an event reads has an effect. */
static void fields_of_events(void)
{
    static const struct tacit_limits limits = {
        {21, 22, 23, 24, 25, 26, 27, 28, 29, 30, 31, 32, 33}};
    struct tacit_totals totals = {{41, 42, 43, 44, 45, 46, 47, 48, 49, 50}};
    struct octets area = hex("850D0002 80 90");
    uint8_t room[19] = {0};
    struct sessions row = two_open();
    row.totals = totals;
    struct row_call call = {.at = 1,
                            .event = {TACIT_EVENT_HELLO, 0x0B0C0D0E, 0x1B1C1D1E, 0x2B2C2D2E},
                            .limits = limits,
                            .area = area.at,
                            .area_length = area.length,
                            .room = room,
                            .room_length = sizeof room};
    CHECK(row_event(&row, call).outcome == TACIT_DONE);
    CHECK(row.at[1].hello == 0x2B2C2D2E && row.at[1].enabled == (APP(4) | APP(7)));
    CHECK(same_totals(row.totals, totals));
    call.event.which = TACIT_EVENT_CAPABILITY;
    CHECK(row_event(&row, call).lost == TACIT_KIND_SET(0));
    CHECK(row.at[1].disabled == 1 && room[0] == 0);
    totals.of[0] = 40;
    CHECK(same_totals(row.totals, totals));
    call.event.which = TACIT_EVENT_LOCAL_CHANGE;
    call.event.ta_id = 10;
    CHECK(row_event(&row, call).written == 17);
    CHECK(row.at[1].enabled == (APP(4) | APP(7) | APP(10)) && room[14] == 10);
    CHECK(row.at[1].hello == 0x2B2C2D2E && row.at[1].next == 2 && row.at[0].next == 1);
    CHECK(same_totals(row.totals, totals));
}

/* Writes an area that lists the TA-Ids from first to last. */
static size_t list(uint8_t *area, uint32_t first, uint32_t last)
{
    uint8_t length = (uint8_t)(1 + 4 * (last - first + 1));
    const uint8_t head[] = {0x85, 0x0F, 0, length, 0x80};
    memcpy(area, head, sizeof head);
    for (uint32_t ta_id = first; ta_id <= last; ta_id++) {
        const uint8_t element[] = {0, (uint8_t)ta_id, 0x80, 0};
        memcpy(area + sizeof head + 4 * (ta_id - first), element, sizeof element);
    }
    return 4 + (size_t)length;
}

/* The outcome where the peer of one session lists these, and the row after it. */
static uint8_t outcome_with(struct sessions row, size_t at, struct tacit_limits limits,
                            uint32_t first, uint32_t last, struct sessions *after)
{
    uint8_t area[64], room[3] = {1, 2, 3};
    struct row_call call = {.at = at,
                            .event = {TACIT_EVENT_INITIALIZATION, 0x41, 0x42, 0x43},
                            .limits = limits,
                            .area = area,
                            .area_length = list(area, first, last),
                            .room = room,
                            .room_length = sizeof room};
    struct tacit_answer answer = row_event(&row, call);
    CHECK(answer.refusal == 0);
    if (after != NULL)
        *after = row;
    return answer.outcome;
}

/* Application n is used by n sessions: each limit, and no other, lets it in or not. */
static void own_limits(void)
{
    struct record record = fresh(TACIT_ALL_APPS);
    struct sessions row = {.length = 14};
    struct tacit_limits full;
    for (uint32_t i = 0; i <= 13; i++)
        row.at[i] = session_in(&record);
    for (uint32_t n = 1; n <= 13; n++) {
        CHECK(outcome_with(row, n - 1, tacit_no_limits(), n, 13, &row) == TACIT_DONE);
        full.of[n - 1] = (uint8_t)n;
    }
    CHECK(outcome_with(row, 13, full, 1, 13, NULL) == TACIT_AT_LIMIT);
    for (uint32_t n = 1; n <= 13; n++) {
        trying("the limit of %lu", (unsigned long)n);
        CHECK(row_count(&row, n).count == n);
        CHECK(outcome_with(row, 13, full, n, n, NULL) == TACIT_AT_LIMIT);
        struct tacit_limits limits = set_limit(full, n, n + 1).limits;
        CHECK(outcome_with(row, 13, limits, n, n, NULL) == TACIT_DONE);
        CHECK(outcome_with(row, 13, limits, 1, 13, NULL) == TACIT_DONE);
        limits = set_limit(tacit_no_limits(), n, n).limits;
        CHECK(outcome_with(row, 13, limits, n, n, NULL) == TACIT_AT_LIMIT);
        CHECK(outcome_with(row, 13, limits, 1, 13, NULL) == TACIT_DONE);
    }
}

void numbers(void)
{
    test("TA-Ids of all 32 bits", applications);
    test("kinds of all 32 bits", kinds_of_label);
    test("kinds of all 32 bits, of totals", totals_of_kinds);
    test("SAC Apps of all 32 bits", sac_apps);
    test("wishes of all 32 bits", kept_wishes);
    test("sets of all 32 bits", sets);
    test("the kinds that each application opens", table);
    test("why, by what each application opens", reasons);
    test("TA-Ids of 16 bits in a list", listed);
    test("Hello numbers of all 32 bits", hellos);
    test("message numbers, and 0 after the last", message_numbers);
    test("event numbers of all 32 bits", event_numbers);
    test("on and off of all 32 bits", on_and_off);
    test("TA-Ids of all 32 bits, in rows", applications_of_rows);
    test("limits of all 32 bits", limits_to_set);
    test("row numbers of all 64 bits", row_numbers);
    test("fields of events, all different", fields_of_events);
    test("the limit of each application", own_limits);
}
