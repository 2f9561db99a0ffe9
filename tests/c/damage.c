/*
 * Records and areas that were damaged. What they should give is not known here;
 * the wrappers check what holds of any call, and that no call looks outside.
 */
#include "harness.h"

#define APP(n) TACIT_APP_SET(n)

/* As it is, and with octets 4 to 21 as those of a record of kind 1. */
static void both_moves(const struct record *original)
{
    const struct record old = kind1_for(original);
    struct record kind1 = {{7}, TACIT_KIND1_LENGTH}, kind2 = {{7}, TACIT_RECORD_LENGTH};
    back(original, &kind1);
    forward(original, &kind2);
    forward(&old, &kind2);
}

static void every_call(const struct record *original)
{
    struct octets area = hex("85060001 80 850F0009 80 00040000 00078000 850D0003 80 C0 10"
                             "85080001 80 89020001 00");
    uint8_t room[24] = {0};
    permitted_kinds(original);
    retry_interval(original);
    struct record record = *original;
    initialization(&record, area.at, area.length);
    record = *original;
    capability(&record, area.at, area.length);
    record = *original;
    local_change(&record, 4, true, room, sizeof room);
    record = *original;
    local_change(&record, 7, false, room, sizeof room);
    record = *original;
    wish(&record, 0, 1, true, room, sizeof room);
    record = *original;
    wish(&record, TACIT_ALL_SAC, 4, false, room, sizeof room);
    record = *original;
    mismatch(&record);
    record = *original;
    hello(&record, 9);
    record = *original;
    closed(&record);
    both_moves(original);
}

/* Each octet of four sound records at each of its values. */
static void records(void)
{
    static const char *const rows[] = {
        "1600 0200 00 47 4800 0000 0000 00 00 05000000 01000000 00 00",
        "1600 0200 01 37 4800 4000 0300 09 00 00000000 FFFFFFFF 07 05",
        "1600 0200 02 47 4800 0000 0000 00 00 05000000 01000000 07 00",
        "1600 0200 03 0F 4800 0000 0000 00 00 00000000 01000000 00 00",
    };
    for (size_t row = 0; row < sizeof rows / sizeof *rows; row++) {
        struct record original = record_of(rows[row]);
        CHECK(sound(&original));
        for (size_t at = 0; at < TACIT_RECORD_LENGTH; at++) {
            for (unsigned value = 0; value < 256; value++) {
                trying("record %zu with octet %zu as %u", row, at, value);
                struct record record = original;
                record.octets[at] = (uint8_t)value;
                bool same = value == original.octets[at];
                if (at < 4 || at == 13)
                    CHECK(sound(&record) == same);
                if (at >= 18 && at < 22)
                    CHECK(sound(&record));
                if (at == 22)
                    CHECK(sound(&record) == (value <= 7));
                if (at == 23)
                    CHECK(sound(&record) == (value <= (record.octets[4] == TACIT_OPEN ? 7 : 0)));
                every_call(&record);
            }
        }
    }
}

static void records_without_order(void)
{
    for (int i = 0; i < 2000; i++) {
        struct record record =
            record_of("1600 0200 00 00 0000 0000 0000 00 00 00000000 00000000 00 00");
        trying("record %d without order", i);
        for (size_t at = i % 2 ? 4 : 0; at < TACIT_RECORD_LENGTH; at++)
            record.octets[at] = (uint8_t)any_number();
        every_call(&record);
    }
}

/* An area cut at each place, and with each of its bits turned. */
static void areas(void)
{
    struct octets whole = hex("85000002 0001 85060001 80 850F000D 80 00048000 00078000 000A0000"
                              "850D0003 80 C0 10 8700 0004 00000000" ALL_THREE);
    struct record ready = fresh(APP(4) | APP(7));
    struct record open = opened(APP(4) | APP(7), "85060001 80 850F0009 80 00048000 00078000");
    for (size_t length = 0; length <= whole.length; length++) {
        trying("an area cut to %zu octets", length);
        struct record record = ready;
        uint8_t refusal = initialization(&record, whole.at, length).refusal;
        CHECK(refusal == read_area(whole.at, length).refusal);
        CHECK(refusal == 0 || refusal == 2);
        record = open;
        CHECK(capability(&record, whole.at, length).refusal == refusal);
    }
    for (size_t bit = 0; bit < whole.length * 8; bit++) {
        trying("an area with bit %zu turned", bit);
        struct octets area = whole;
        area.at[bit / 8] ^= (uint8_t)(0x80 >> bit % 8);
        uint8_t refusal = read_area(area.at, area.length).refusal;
        struct record record = ready;
        CHECK(initialization(&record, area.at, area.length).refusal == refusal);
        record = open;
        CHECK(capability(&record, area.at, area.length).refusal == refusal);
    }
}

static void areas_without_order(void)
{
    struct record ready = fresh(TACIT_ALL_APPS);
    struct record open = opened(TACIT_ALL_APPS, "850F0005 80 00048000");
    for (int i = 0; i < 5000; i++) {
        trying("area %d without order", i);
        struct octets area = {{0}, any_number() % 64};
        for (size_t at = 0; at < area.length; at++)
            area.at[at] = (uint8_t)(i % 2 ? any_number() : any_number() % 8);
        uint8_t refusal = read_area(area.at, area.length).refusal;
        struct record record = ready;
        CHECK(initialization(&record, area.at, area.length).refusal == refusal);
        record = open;
        CHECK(capability(&record, area.at, area.length).refusal == refusal);
    }
}

/* Long ways through all events, from fresh sessions of every sort. */
static void long_ways(void)
{
    static const char *const texts[] = {
        "",
        "85060001 80",
        "85060001 80 850F0009 80 00048000 00078000",
        "85060001 80 850F0005 80 00078000 850D0003 80 C0 B0",
        "850F0001 00",
        "850F0001 80",
        "850F0005 80 00070000",
        "850D0002 80 40",
        "850F0005 80 000A8000 06000000",
        ALL_THREE "85060001 80 850F0005 80 00088000",
        "85080001 80 85090001 00",
    };
    for (unsigned ends = 0; ends < 16; ends++) {
        struct record record = {{0}, TACIT_RECORD_LENGTH};
        create(&record,
               (struct tacit_settings){.initiating = ends & 1, .active = ends & 2,
                                       .uses_tac = ends & 4, .drops = ends & 8,
                                       .protected_kinds = 0x10D,
                                       .enabled = APP(4) | APP(7) | APP(8),
                                       .first_number = any_number(),
                                       .capabilities = any_number() % 8});
        uint32_t wishes = ends;
        for (int step = 0; step < 300; step++) {
            trying("step %d of a session of sort %u", step, ends);
            const char *text = texts[any_number() % (sizeof texts / sizeof *texts)];
            uint8_t room[20] = {0};
            switch (any_number() % 9) {
            case 0: mismatch(&record); break;
            case 1: hello(&record, any_number() % 100 + (uint32_t)step); break;
            case 2: closed(&record); break;
            case 3: case 4: capability_text(&record, text); break;
            case 5:
                local_change(&record, any_number() % 15, any_number() % 2, room, any_number() % 21);
                break;
            case 6:
                wishes = wish(&record, wishes, any_number() % 6, any_number() % 2, room,
                              any_number() % 21)
                             .wishes;
                break;
            default: initialization_text(&record, text); break;
            }
            if (!CHECK(sound(&record)))
                return;
        }
    }
}

/* ---- Rows ---- */

static const char *const areas_of_rows[] = {
    "",
    "85060001 80",
    "85060001 80 850F0009 80 00048000 00078000",
    "85060001 80 850F0005 80 00048000",
    "850F0005 80 00078000 850D0003 80 C0 B0",
    "850F000D 80 00058000 00078000 00088000",
    "850F0001 00",
    "850F0005 80 00070000",
    "850F0005 80 00048000 06000000",
    ALL_THREE "850F0005 80 00088000",
    "85080001 80 85090001 00",
    "85080001 00 89020001 80",
};

/* Numbers about the limits of a total, and now and then any other. */
static struct tacit_totals any_totals(void)
{
    static const uint8_t numbers[] = {0, 1, 2, 62, 63, 64, 65, 66};
    struct tacit_totals totals;
    for (uint32_t kind = 0; kind < TACIT_KINDS; kind++)
        totals.of[kind] = any_number() % 8 == 0 ? (uint8_t)any_number()
                                                : numbers[any_number() % sizeof numbers];
    return totals;
}

/* Any event at this session, with limits of 0 to 3, and now and then of any number. */
static struct tacit_answer any_event(struct sessions *row, size_t at)
{
    uint8_t room[20] = {0};
    struct octets area =
        hex(areas_of_rows[any_number() % (sizeof areas_of_rows / sizeof *areas_of_rows)]);
    uint32_t which = any_number() % 9;
    struct row_call call = {
        .at = at,
        .event = {which > 6 ? TACIT_EVENT_INITIALIZATION : which, any_number() % 15,
                  any_number() % 2, any_number() % 100},
        .area = area.at,
        .area_length = area.length,
        .room = room,
        .room_length = any_number() % 21,
    };
    for (unsigned i = 0; i < TACIT_APPLICATIONS; i++)
        call.limits.of[i] = (uint8_t)(any_number() % 8 == 0 ? any_number() : any_number() % 4);
    return row_event(row, call);
}

/* A session with one octet changed, first or last of two, and an event at either. */
static void sessions(void)
{
    static const char *const rows[] = {
        "1600 0200 00 47 4800 0000 0000 00 00 05000000 01000000 00 00",
        "1600 0200 01 37 4800 4000 0300 09 00 00000000 FFFFFFFF 07 05",
        "1600 0200 02 47 4800 0000 0000 00 00 05000000 01000000 07 00",
        "1600 0200 03 0F 4800 0000 0000 00 00 00000000 01000000 00 00",
    };
    struct record other = opened(APP(4) | APP(7), "85060001 80 850F0005 80 00048000");
    for (size_t row = 0; row < sizeof rows / sizeof *rows; row++) {
        for (size_t at = 4; at < TACIT_RECORD_LENGTH; at++) {
            for (unsigned value = 0; value < 256; value++) {
                trying("session %zu with octet %zu as %u", row, at, value);
                struct record damaged = record_of(rows[row]);
                if (at != 13)
                    damaged.octets[at] = (uint8_t)value;
                struct sessions two = {.length = 2};
                two.at[value % 2] = session_in(&damaged);
                two.at[1 - value % 2] = session_in(&other);
                two.totals = value % 3 == 0 ? any_totals() : recount(&two).totals;
                any_event(&two, value / 2 % 2);
            }
        }
    }
}

static void sessions_without_order(void)
{
    for (int i = 0; i < 2000; i++) {
        trying("session %d without order", i);
        struct record record = {{0}, TACIT_RECORD_LENGTH};
        for (size_t at = 4; at < TACIT_RECORD_LENGTH; at++)
            record.octets[at] = (uint8_t)any_number();
        record.octets[13] = 0;
        struct sessions row = {
            .at = {session_in(&record)}, .length = 1, .totals = any_totals()};
        struct record copy = {{7}, TACIT_RECORD_LENGTH};
        store(row.at[0], &copy);
        any_event(&row, 0);
        row_count(&row, any_number() % 15);
        recount(&row);
    }
}

/*
 * Long ways through all events from a row of fresh sessions of every sort. Each
 * count is how often a session gained the application less how often one lost it,
 * and the totals are what a walk counts.
 */
static void long_ways_of_rows(void)
{
    struct sessions row = {.length = 32};
    unsigned count[TACIT_APPLICATIONS + 1] = {0}, outcomes[4] = {0};
    for (unsigned ends = 0; ends < row.length; ends++) {
        struct record record = {{0}, TACIT_RECORD_LENGTH};
        create(&record,
               (struct tacit_settings){.initiating = ends & 1, .active = ends & 2,
                                       .uses_tac = (ends & 12) != 12, .drops = ends & 8,
                                       .protected_kinds = 0x10D,
                                       .enabled = APP(4) | APP(7) | APP(8),
                                       .first_number = any_number(),
                                       .capabilities = any_number() % 8});
        row.at[ends] = session_in(&record);
    }
    for (int step = 0; step < 6000; step++) {
        size_t at = any_number() % (row.length + 1);
        trying("step %d, at session %zu of a row", step, at);
        uint32_t before = used(row.at[at]);
        struct tacit_answer answer = any_event(&row, at);
        CHECK((answer.refusal == 11) == (at == row.length) && answer.refusal != 10);
        CHECK(answer.refusal != 16 && same_totals(row.totals, walked(&row)));
        outcomes[answer.outcome % 4]++;
        uint32_t after = used(row.at[at]), ta_id = (uint32_t)step % TACIT_APPLICATIONS + 1;
        for (uint32_t each = 1; each <= TACIT_APPLICATIONS; each++)
            count[each] += (after >> (each - 1) & 1) - (before >> (each - 1) & 1);
        CHECK(row_count(&row, ta_id).count == count[ta_id]);
    }
    for (unsigned outcome = 0; outcome < 4; outcome++)
        CHECK(outcomes[outcome] > 50);
}

void damage(void)
{
    test("records with one octet changed", records);
    test("records without order", records_without_order);
    test("areas cut and with bits turned", areas);
    test("areas without order", areas_without_order);
    test("long ways through all events", long_ways);
    test("sessions of a row with one octet changed", sessions);
    test("sessions without order", sessions_without_order);
    test("long ways of a row through all events", long_ways_of_rows);
}
