/* Records of kind 1: moved forward to kind 2 and back, and refused by every other call. */
#include "harness.h"

#include <string.h>

#define APP(n) TACIT_APP_SET(n)
#define KIND(k) TACIT_KIND_SET(k)
#define COUNT(list) (sizeof(list) / sizeof *(list))
#define MLDP (TACIT_ALL_KINDS & ~FREE_KINDS) /* kinds 2 to 6 */

/* A record of kind 1 for each state, Open in force and not. */
static const char *const stored[] = {
    "1400 0100 00 47 4800 0000 0000 00 00 05000000 01000000",
    "1400 0100 01 37 4C00 4400 0300 09 00 00000000 FFFFFFFF",
    "1400 0100 01 03 4800 0000 0300 00 00 00000000 01000000",
    "1400 0100 02 47 4800 0000 0000 00 00 05000000 01000000",
    "1400 0100 03 0F 4800 0000 0000 00 00 00000000 01000000",
};

/* A room with octets in it that are no record. */
static struct record room_of(size_t length)
{
    struct record room = {{0}, length};
    for (size_t i = 0; i < RECORD_MOST; i++)
        room.octets[i] = (uint8_t)(0xE1 + 7 * i);
    return room;
}

static struct record moved_forward(const struct record *kind1, uint32_t lost)
{
    struct record room = room_of(TACIT_RECORD_LENGTH);
    struct tacit_moved moved = forward(kind1, &room);
    CHECK(moved.refusal == 0 && moved.lost == lost);
    return room;
}

/* ---- The stored record ---- */

/* The one of document 01: octet by octet, and what happens to it then. */
static void stored_record(void)
{
    const struct record old = record_of("1400 0100 00 07 4800 0000 0000 00 00 00000000 01000000");
    const struct record wanted =
        record_of("1600 0200 00 07 4800 0000 0000 00 00 00000000 01000000 00 00");
    const struct record created = holding(0, APP(4) | APP(7));
    CHECK(old.length == TACIT_KIND1_LENGTH && wanted.length == TACIT_RECORD_LENGTH);
    struct record moved = moved_forward(&old, 0), again = room_of(TACIT_KIND1_LENGTH);
    CHECK(same_record(&moved, &wanted) && same_record(&moved, &created));
    CHECK(back(&moved, &again) == 0 && same_record(&again, &old));

    CHECK(kinds(&moved) == 0 && why_not(&moved, 8).reason == TACIT_NOT_OPEN);
    CHECK(hello(&moved, 9).outcome == TACIT_DONE);
    CHECK(initialization_text(&moved, "85060001 80 850F0009 80 00078000 00038000" ALL_THREE)
              .gained == KIND(8));
    const struct record opened_one =
        record_of("1600 0200 01 77 4800 4400 0000 00 00 09000000 01000000 00 07");
    CHECK(same_record(&moved, &opened_one) && back(&moved, &again) == 13);
    CHECK(closed(&moved).lost == KIND(8) && back(&moved, &again) == 0);
    const struct record closed_one =
        record_of("1400 0100 00 47 4800 0000 0000 00 00 09000000 01000000");
    CHECK(same_record(&again, &closed_one));
}

/* ---- Damage ---- */

/* Each octet of each record at each of its values, moved forward. */
static void damaged_forward(void)
{
    for (size_t row = 0; row < COUNT(stored); row++) {
        const struct record original = record_of(stored[row]);
        CHECK(sound_kind1(&original));
        for (size_t at = 0; at < TACIT_KIND1_LENGTH; at++) {
            for (unsigned value = 0; value < 256; value++) {
                trying("record %zu with octet %zu as %u", row, at, value);
                struct record record = original, room = room_of(TACIT_RECORD_LENGTH);
                record.octets[at] = (uint8_t)value;
                uint8_t refusal = forward(&record, &room).refusal;
                if (at < 4 || at == 13)
                    CHECK(refusal == (value == original.octets[at] ? 0 : 10));
                if (at >= 18)
                    CHECK(refusal == 0);
            }
        }
    }
}

/* The same of kind 2, moved back; the capabilities are looked at below. */
static void damaged_back(void)
{
    for (size_t row = 0; row < COUNT(stored); row++) {
        const struct record old = record_of(stored[row]), original = kind2_for(&old);
        CHECK(sound(&original));
        for (size_t at = 0; at < TACIT_KIND1_LENGTH; at++) {
            for (unsigned value = 0; value < 256; value++) {
                trying("record %zu with octet %zu as %u", row, at, value);
                struct record record = original, room = room_of(TACIT_KIND1_LENGTH);
                record.octets[at] = (uint8_t)value;
                uint8_t refusal = back(&record, &room);
                if (at < 4 || at == 13)
                    CHECK(refusal == (value == original.octets[at] ? 0 : 10));
                if (at >= 18)
                    CHECK(refusal == 0);
            }
        }
    }
}

static void without_order(void)
{
    for (int i = 0; i < 4000; i++) {
        trying("record %d without order", i);
        struct record record = record_of(stored[0]);
        for (size_t at = i % 4 == 0 ? 0 : 4; at < TACIT_KIND1_LENGTH; at++)
            record.octets[at] = (uint8_t)any_number();
        if (i % 2 != 0) {
            record.octets[4] &= 3;
            record.octets[13] = 0;
        }
        struct record room = room_of(TACIT_RECORD_LENGTH);
        forward(&record, &room);
        room = room_of(TACIT_KIND1_LENGTH);
        record = kind2_for(&record);
        back(&record, &room);
    }
}

/* ---- Lengths ---- */

/* Records that go both ways, with every length of either buffer. */
static void every_length(void)
{
    const struct record old = record_of(stored[1]), new = kind2_for(&old);
    for (size_t length = 0; length <= RECORD_MOST; length++) {
        for (size_t room_length = 0; room_length <= RECORD_MOST; room_length++) {
            trying("a record of %zu octets into a room of %zu", length, room_length);
            struct record record = old, room = room_of(room_length);
            record.length = length;
            CHECK(forward(&record, &room).refusal == (length == 22 && room_length == 24 ? 0 : 10));
            record = new;
            record.length = length;
            room = room_of(room_length);
            CHECK(back(&record, &room) == (length == 24 && room_length == 22 ? 0 : 10));
        }
    }
}

/* ---- Refusals ---- */

/* Back: 10, for the record and for the room, then 13, by taking away one cause at a time. */
static void order(void)
{
    struct record record =
        record_of("1600 0200 01 37 4C00 4400 0300 09 80 00000000 01000000 03 06");
    struct record smaller = room_of(TACIT_KIND1_LENGTH - 1), room = room_of(TACIT_KIND1_LENGTH);
    CHECK(back(&record, &smaller) == 10);
    CHECK(back(&record, &room) == 10);
    record.octets[13] = 0;
    CHECK(back(&record, &smaller) == 10);
    CHECK(back(&record, &room) == 13);
    record.octets[22] = 0;
    CHECK(back(&record, &smaller) == 10);
    CHECK(back(&record, &room) == 13);
    record.octets[22] = 3;
    record.octets[23] = 0;
    CHECK(back(&record, &room) == 13);
    record.octets[22] = 0;
    CHECK(back(&record, &smaller) == 10);
    CHECK(back(&record, &room) == 0);
}

/* Both capability octets: a spare bit is 10 and not 13, so is the peer's outside Open. */
static void with_capabilities(void)
{
    static const uint8_t values[] = {0, 1, 2, 3, 4, 5, 6, 7, 8, 9, 15, 16, 32, 64, 128, 135, 255};
    for (size_t row = 0; row < COUNT(stored); row++) {
        for (size_t pair = 0; pair < COUNT(values) * COUNT(values); pair++) {
            struct record record = record_of(stored[row]), room = room_of(TACIT_KIND1_LENGTH);
            uint8_t ours = values[pair % COUNT(values)], theirs = values[pair / COUNT(values)];
            trying("record %zu with capabilities %X and %X", row, ours, theirs);
            record = kind2_for(&record);
            record.octets[22] = ours;
            record.octets[23] = theirs;
            bool open = record.octets[4] == TACIT_OPEN;
            bool right = ours <= 7 && theirs <= (open ? 7 : 0);
            CHECK(back(&record, &room) == (!right ? 10 : ours != 0 || theirs != 0 ? 13 : 0));
        }
    }
}

/* A record that is none of kind 2, in every call but the move forward. */
static void refused_everywhere(const struct record *original)
{
    uint8_t octets[17] = {0};
    CHECK(!sound(original) && state(original) == TACIT_NO_STATE);
    CHECK(permitted(original, 8).refusal == 10 && why_not(original, 8).refusal == 10);
    CHECK(permitted_kinds(original).refusal == 10 && retry_interval(original).refusal == 10);
    CHECK(load(original).refusal == 10);
    /* Refused, the wrappers leave the record as it was. */
    struct record record = *original, room = room_of(TACIT_KIND1_LENGTH);
    CHECK(initialization_text(&record, "").refusal == 10);
    CHECK(capability_text(&record, "").refusal == 10);
    CHECK(local_change(&record, 5, true, octets, sizeof octets).refusal == 10);
    CHECK(wish(&record, 0, 1, true, octets, sizeof octets).answer.refusal == 10);
    CHECK(mismatch(&record).refusal == 10 && hello(&record, 99).refusal == 10);
    CHECK(closed(&record).refusal == 10 && back(&record, &room) == 10);
    CHECK(same_record(&record, original));
}

/* Of kind 1, and with the heads that are of neither kind: 20 and 2, 22 and 1. */
static void elsewhere(void)
{
    for (size_t row = 0; row < COUNT(stored); row++) {
        trying("record %s", stored[row]);
        struct record old = record_of(stored[row]), room = room_of(TACIT_RECORD_LENGTH);
        refused_everywhere(&old);
        const struct tacit_session session = session_in(&old);
        CHECK(create(&old, (struct tacit_settings){.uses_tac = true}) == 10);
        CHECK(store(session, &old) == 10);
        old.length = TACIT_RECORD_LENGTH; /* as version 4.0.0 had it */
        refused_everywhere(&old);
        CHECK(forward(&old, &room).refusal == 10);
        old.octets[0] = 22;
        refused_everywhere(&old);
        old.octets[0] = 20;
        old.octets[2] = 2;
        refused_everywhere(&old);
        old.length = TACIT_KIND1_LENGTH;
        CHECK(forward(&old, &room).refusal == 10);
        old.octets[0] = 22;
        CHECK(forward(&old, &room).refusal == 10);
        old.length = TACIT_RECORD_LENGTH;
        CHECK(sound(&old) && forward(&old, &room).refusal == 10);
    }
}

/* ---- What is lost ---- */

static void losses(void)
{
    static const struct {
        const char *record;
        uint16_t lost, kept;
    } rows[] = {
        /* Ready, Held and Gone permitted nothing. */
        {"1400 0100 00 07 0C04 0000 FF03 00 00 00000000 01000000", 0, 0},
        {"1400 0100 02 07 0C04 0000 FF03 00 00 00000000 01000000", 0, 0},
        {"1400 0100 03 0F 0C04 0000 FF03 00 00 00000000 01000000", 0, 0},
        /* Open and not in force: all five, with TAC and without, whatever is enabled. */
        {"1400 0100 01 07 0000 0000 0000 00 00 00000000 01000000", 0x7C, 0x383},
        {"1400 0100 01 03 0C04 0000 FF03 00 00 00000000 01000000", 0x7C, 0x383},
        /* SAC controls none of them. */
        {"1400 0100 01 07 4800 0000 0000 0F 00 00000000 01000000", 0x7C, 0x200},
        {"1400 0100 01 37 0C00 0C00 0000 0F 00 00000000 01000000", 0x7C, 0x000},
        {"1400 0100 01 17 8000 8000 8F00 0F 00 00000000 01000000", 0x0C, 0x000},
        /* In force: mLDP Tunneling, mLDP Node Protection, both; in common and not. */
        {"1400 0100 01 17 0400 0400 0000 00 00 00000000 01000000", 0x7C, 0x000},
        {"1400 0100 01 17 0004 0004 0000 00 00 00000000 01000000", 0x7C, 0x000},
        {"1400 0100 01 17 0C04 0C04 0000 00 00 00000000 01000000", 0x7C, 0x001},
        {"1400 0100 01 17 0C04 0800 FF03 00 00 00000000 01000000", 0, 0x001},
        {"1400 0100 01 17 0800 0C04 FF03 00 00 00000000 01000000", 0, 0x001},
        {"1400 0100 01 17 0C00 0804 0000 00 00 00000000 01000000", 0, 0x001},
        /* Session Protection: the protected ones among them. */
        {"1400 0100 01 17 8000 8000 0E00 00 00 00000000 01000000", 0x0C, 0x002},
        {"1400 0100 01 17 8000 8000 FF03 00 00 00000000 01000000", 0x7C, 0x383},
        {"1400 0100 01 17 8000 8000 8303 00 00 00000000 01000000", 0, 0x383},
        {"1400 0100 01 17 8801 0801 7C00 00 00 00000000 01000000", 0, 0x001},
        {"1400 0100 01 17 8400 8400 1000 00 00 00000000 01000000", 0x7C, 0x000},
    };
    for (size_t i = 0; i < COUNT(rows); i++) {
        trying("what %s loses", rows[i].record);
        const struct record old = record_of(rows[i].record);
        const struct record moved = moved_forward(&old, rows[i].lost);
        CHECK(kinds(&moved) == rows[i].kept);
        for (uint32_t kind = 2; kind <= 6; kind++)
            if ((rows[i].lost & KIND(kind)) != 0)
                CHECK(why_not(&moved, kind).reason == TACIT_CAPABILITY_NOT_OURS);
    }
}

/* One application in common, each of them, with each set of these kinds protected. */
static void losses_by_application(void)
{
    for (uint32_t ta_id = 1; ta_id <= 13; ta_id++) {
        for (uint32_t set = 0; set < 32; set++) {
            trying("what a session loses that uses %lu and protects %lX", (unsigned long)ta_id,
                   (unsigned long)set << 2);
            const struct record new = record_for((struct tacit_session){
                .state = TACIT_OPEN, .flags = 0x17, .enabled = (uint16_t)APP(ta_id),
                .listed = (uint16_t)APP(ta_id), .protects = (uint16_t)(set << 2), .next = 1});
            const struct record old = kind1_for(&new);
            bool mldp = ta_id == 3 || ta_id == 11;
            moved_forward(&old, mldp ? MLDP : ta_id == 8 ? set << 2 : 0);
        }
    }
}

/* ---- After the move ---- */

/* Neither a message of the peer nor a new opening brings back what was lost: ours are not held. */
static void lost_for_good(void)
{
    const struct record old = record_of("1400 0100 01 37 0C00 0C00 0000 00 00 00000000 01000000");
    struct record record = moved_forward(&old, MLDP);
    CHECK(kinds(&record) == KIND(0));
    CHECK(capability_text(&record, ALL_THREE).gained == 0);
    CHECK(session_in(&record).ours == 0 && session_in(&record).theirs == 7);
    CHECK(why_not(&record, 2).reason == TACIT_CAPABILITY_NOT_OURS);
    CHECK(closed(&record).lost == KIND(0));
    const char *opening = "85060001 80 850F0009 80 00038000 00048000" ALL_THREE;
    CHECK(initialization_text(&record, opening).gained == KIND(0));
    CHECK(why_not(&record, 6).reason == TACIT_CAPABILITY_NOT_OURS);
    /* A new record with capabilities, by the same opening, permits them. */
    record = fresh(APP(3) | APP(4));
    CHECK(initialization_text(&record, opening).gained == (MLDP | KIND(0)));
    struct record room = room_of(TACIT_KIND1_LENGTH);
    CHECK(back(&record, &room) == 13);
}

/* A row of sessions moved has the totals of what they permit now. */
static void in_a_row(void)
{
    const struct record in_force = record_of(stored[1]), not_in_force = record_of(stored[2]);
    const struct record first = moved_forward(&in_force, MLDP);
    const struct record second = moved_forward(&not_in_force, MLDP);
    struct sessions row = {.at = {load(&first).session, load(&second).session}, .length = 2};
    row.totals = recount(&row).totals;
    const struct tacit_totals wanted = {{1, 1, 0, 0, 0, 0, 0, 1, 1, 1}};
    CHECK(same_totals(row.totals, wanted) && same_totals(row.totals, walked(&row)));
    CHECK(row_count(&row, 3).count == 1);
    CHECK(row_closed(&row, 1).lost == FREE_KINDS);
}

/* ---- The records of version 4.0.0 ---- */

/* 24 octets that begin as kind 1 does: by two octets of the head they are kind 2. */
static void taken_over(void)
{
    static const struct {
        const char *record;
        uint16_t kinds, lost;
    } rows[] = {
        {"1400 0100 01 37 0C00 0C00 0000 00 00 00000000 01000000 07 05", 0x065, 0x7C},
        {"1400 0100 01 07 4800 0000 0000 00 00 00000000 01000000 07 07", 0x3FF, 0x7C},
        {"1400 0100 01 07 4800 0000 0000 00 00 00000000 01000000 00 00", 0x383, 0x7C},
        {"1400 0100 00 47 4800 0000 0000 00 00 05000000 01000000 03 00", 0, 0},
        {"1400 0100 02 47 4800 0000 0000 00 00 05000000 01000000 07 00", 0, 0},
        {"1400 0100 03 0F 4800 0000 0000 00 00 00000000 01000000 01 00", 0, 0},
    };
    for (size_t i = 0; i < COUNT(rows); i++) {
        trying("version 4.0.0's %s", rows[i].record);
        struct record record = record_of(rows[i].record), cut = record;
        refused_everywhere(&record);
        record.octets[0] = 22;
        record.octets[2] = 2;
        CHECK(sound(&record) && kinds(&record) == rows[i].kinds);
        CHECK(session_in(&record).ours == cut.octets[22]);
        CHECK(session_in(&record).theirs == cut.octets[23]);
        /* Cut to 22 octets it is a record of kind 1, and its capabilities are forgotten. */
        cut.length = TACIT_KIND1_LENGTH;
        struct record moved = moved_forward(&cut, rows[i].lost);
        CHECK(kinds(&moved) == (rows[i].kinds & FREE_KINDS));
        record.octets[22] = record.octets[23] = 0;
        CHECK(same_record(&moved, &record));
    }
}

/* ---- There and back ---- */

/* Forward and back gives the old record, back and forward the new one. */
static void there_and_back_of(const struct record *new)
{
    struct record old = room_of(TACIT_KIND1_LENGTH), again = room_of(TACIT_RECORD_LENGTH);
    if (new->octets[22] != 0 || new->octets[23] != 0) {
        CHECK(back(new, &old) == 13);
        return;
    }
    CHECK(back(new, &old) == 0);
    struct tacit_moved moved = forward(&old, &again);
    CHECK(moved.refusal == 0 && same_record(&again, new));
    /* Reported is what the older rule permitted, though the session permitted none of it. */
    CHECK(moved.lost == lost_by_move(session_in(new)) && (kinds(new) & moved.lost) == 0);
    struct record last = room_of(TACIT_KIND1_LENGTH);
    CHECK(back(&again, &last) == 0 && same_record(&last, &old));
}

/* Sessions of every sort on long ways; of every other one the peer holds nothing. */
static void there_and_back(void)
{
    static const char *const texts[] = {
        "",
        "85060001 80",
        "85060001 80 850F000D 80 00048000 00038000 00088000",
        "850F0005 80 00088000 850D0003 80 C0 B0",
        "850F0001 00",
        "850F0005 80 000B8000 850D0002 80 40",
        "850F0005 80 00030000",
    };
    for (unsigned ends = 0; ends < 32; ends++) {
        struct record record = {{0}, TACIT_RECORD_LENGTH};
        create(&record, (struct tacit_settings){.initiating = ends & 1, .active = ends & 2,
                                                .uses_tac = (ends & 12) != 12, .drops = ends & 8,
                                                .protected_kinds = 0x12D,
                                                .enabled = APP(3) | APP(4) | APP(8) | APP(11),
                                                .first_number = any_number(),
                                                .capabilities = ends & 16 ? any_number() % 8 : 0});
        for (int step = 0; step < 100; step++) {
            trying("step %d of a session of sort %u", step, ends);
            struct octets area = hex(texts[any_number() % COUNT(texts)]);
            struct octets three = hex(ALL_THREE);
            if (step % 2 != 0) {
                memcpy(area.at + area.length, three.at, three.length);
                area.length += three.length;
            }
            switch (any_number() % 6) {
            case 0: mismatch(&record); break;
            case 1: hello(&record, any_number()); break;
            case 2: closed(&record); break;
            case 3: capability(&record, area.at, area.length); break;
            default: initialization(&record, area.at, area.length); break;
            }
            there_and_back_of(&record);
        }
    }
}

void moves(void)
{
    test("the stored record moved forward and back", stored_record);
    test("records of kind 1 with one octet changed", damaged_forward);
    test("records of kind 2 with one octet changed, moved back", damaged_back);
    test("records without order, moved", without_order);
    test("moves with buffers of 0 to 64 octets", every_length);
    test("the order of refusals on the way back", order);
    test("the way back with capabilities held", with_capabilities);
    test("a record of kind 1 in every other call", elsewhere);
    test("what a session moved forward loses, row by row", losses);
    test("what a session moved forward loses, by application", losses_by_application);
    test("what is lost by the move stays lost", lost_for_good);
    test("a row of sessions moved forward", in_a_row);
    test("the records of version 4.0.0", taken_over);
    test("there and back, back and there", there_and_back);
}
