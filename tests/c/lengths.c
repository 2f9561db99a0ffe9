/* Buffers of every length. */
#define _DEFAULT_SOURCE

#include "harness.h"

#include <stdio.h>
#include <string.h>
#include <sys/mman.h>

#define APP(n) TACIT_APP_SET(n)

static const char dynamic_fec129[] = "85060001 80 850F0005 80 00078000";

static const struct tacit_settings fec129 = {
    .initiating = true, .active = true, .uses_tac = true, .enabled = APP(7), .first_number = 1};

static void nothing_at_all(void)
{
    CHECK(tacit_read(NULL, 0).refusal == 0);
    CHECK(tacit_create(NULL, 0, fec129) == 10);
    CHECK(tacit_initialization(NULL, 0, NULL, 0).refusal == 10);
    CHECK(tacit_capability(NULL, 0, NULL, 0).refusal == 10);
    CHECK(tacit_local_change(NULL, 0, 1, true, NULL, 0).refusal == 10);
    CHECK(tacit_wish(NULL, 0, 0, 1, true, NULL, 0).answer.refusal == 10);
    CHECK(tacit_mismatch(NULL, 0).refusal == 10);
    CHECK(tacit_hello(NULL, 0, 1).refusal == 10);
    CHECK(tacit_closed(NULL, 0).refusal == 10);
    CHECK(tacit_permitted(NULL, 0, 0).refusal == 10);
    CHECK(tacit_permitted_kinds(NULL, 0).refusal == 10);
    CHECK(tacit_why_not(NULL, 0, 0).refusal == 10);
    CHECK(tacit_retry_interval(NULL, 0).refusal == 10);
    CHECK(tacit_forward(NULL, 0, NULL, 0).refusal == 10);
    CHECK(tacit_back(NULL, 0, NULL, 0) == 10);
    CHECK(!tacit_sound(NULL, 0));
    CHECK(tacit_state(NULL, 0) == TACIT_NO_STATE);

    uint8_t record[TACIT_RECORD_LENGTH];
    CHECK(tacit_create(record, sizeof record, fec129) == 0);
    CHECK(tacit_wish(record, sizeof record, 1, 1, true, NULL, 0).answer.outcome ==
          TACIT_UNCHANGED);
    CHECK(tacit_wish(record, sizeof record, 0, 1, true, NULL, 0).answer.refusal == 7);
    CHECK(tacit_wish_sac(0, NULL, 0).refusal == 0 && tacit_wish_sac(0, NULL, 0).written == 0);
    CHECK(tacit_wish_sac(1, NULL, 0).refusal == 8);
    CHECK(tacit_local_change(record, sizeof record, 6, true, NULL, 0).outcome == TACIT_DONE);
    CHECK(tacit_initialization(record, sizeof record, NULL, 0).outcome == TACIT_DONE);
    CHECK(tacit_capability(record, sizeof record, NULL, 0).outcome == TACIT_DONE);
    CHECK(tacit_local_change(record, sizeof record, 7, false, NULL, 0).refusal == 9);
    CHECK(tacit_wish(record, sizeof record, 0, 1, true, NULL, 0).answer.refusal == 9);
}

static void no_row_at_all(void)
{
    const struct tacit_limits limits = tacit_no_limits();
    const struct tacit_totals found = {{0, 1, 63, 64, 65, 66, 200, 255, 2, 3}};
    struct tacit_totals totals = found;
    struct tacit_session session = {.flags = TACIT_FLAG_USES_TAC, .enabled = APP(7)};
    CHECK(tacit_load(NULL, 0).refusal == 10);
    CHECK(tacit_load(NULL, 0).session.state == TACIT_NO_STATE);
    CHECK(tacit_store(session, NULL, 0) == 10);
    CHECK(tacit_row_count(NULL, 0, 1).refusal == 11);
    CHECK(tacit_recount(NULL, 0).refusal == 11);
    CHECK(tacit_row_initialization(NULL, 0, 0, limits, &totals, NULL, 0).refusal == 11);
    CHECK(tacit_row_capability(NULL, 0, 0, &totals, NULL, 0).refusal == 11);
    CHECK(tacit_row_local_change(NULL, 0, 0, &totals, 1, true, NULL, 0).refusal == 11);
    CHECK(tacit_row_mismatch(NULL, 0, 0, &totals).refusal == 11);
    CHECK(tacit_row_hello(NULL, 0, 0, &totals, 1).refusal == 11);
    CHECK(tacit_row_closed(NULL, 0, 0, &totals).refusal == 11);
    CHECK(same_totals(totals, found));

    totals = tacit_recount(&session, 1).totals;
    CHECK(tacit_row_local_change(&session, 1, 0, &totals, 6, true, NULL, 0).outcome == TACIT_DONE);
    CHECK(tacit_row_initialization(&session, 1, 0, limits, &totals, NULL, 0).outcome ==
          TACIT_DONE);
    CHECK(tacit_row_capability(&session, 1, 0, &totals, NULL, 0).outcome == TACIT_DONE);
    CHECK(tacit_row_local_change(&session, 1, 0, &totals, 7, false, NULL, 0).refusal == 9);
    CHECK(tacit_session_wish(&session, 0, 1, true, NULL, 0).answer.refusal == 9);
    CHECK(session.state == TACIT_OPEN && session.enabled == (APP(6) | APP(7)));
    CHECK(totals.of[0] == 1 && same_totals(totals, tacit_recount(&session, 1).totals));
}

/* A sound record, cut or with octets behind it, in every call. */
static void records(void)
{
    for (size_t length = 0; length <= RECORD_MOST; length++) {
        trying("a record of %zu octets", length);
        bool right = length == TACIT_RECORD_LENGTH;
        struct record original = opened(APP(4) | APP(7), dynamic_fec129);
        original.length = length;
        uint8_t wanted = right ? 0 : 10;
        uint8_t room[17] = {0};
        CHECK(sound(&original) == right);
        CHECK(state(&original) == (right ? TACIT_OPEN : TACIT_NO_STATE));
        CHECK(permitted(&original, 8).refusal == wanted);
        CHECK(permitted_kinds(&original).refusal == wanted);
        CHECK(why_not(&original, 8).refusal == wanted);
        CHECK(retry_interval(&original).refusal == wanted);
        CHECK(load(&original).refusal == wanted);
        struct record record = original, kind1 = {{0}, TACIT_KIND1_LENGTH};
        CHECK(back(&original, &kind1) == (right ? 13 : 10)); /* all three are ours */
        CHECK(store(session_in(&original), &record) == wanted);
        CHECK(capability_text(&record, "").refusal == wanted);
        record = original;
        CHECK(local_change(&record, 5, true, room, sizeof room).refusal == wanted);
        record = original;
        CHECK(wish(&record, 0, 1, true, room, sizeof room).answer.refusal == wanted);
        record = original;
        CHECK(mismatch(&record).refusal == wanted);
        record = original;
        CHECK(hello(&record, 1).refusal == wanted);
        record = original;
        CHECK(closed(&record).refusal == wanted);
        CHECK(initialization_text(&record, "").refusal == wanted);
        CHECK(create(&record, fec129) == wanted);
    }
}

/* Rows with too few sessions or too many, and row numbers around their ends. */
static void rows_of_sessions(void)
{
    struct record record = opened(APP(4) | APP(7), dynamic_fec129);
    struct sessions row = {.length = SESSIONS_MOST};
    for (size_t i = 0; i < SESSIONS_MOST; i++)
        row.at[i] = session_in(&record);
    for (row.length = 0; row.length <= SESSIONS_MOST; row.length++) {
        bool right = row.length >= 1 && row.length <= TACIT_ROW_MOST;
        trying("a row of %zu sessions", row.length);
        CHECK(row_count(&row, 7).refusal == (right ? 0 : 11));
        CHECK(row_count(&row, 7).count == (right ? row.length : 0));
        CHECK(row_count(&row, 4).count == 0);
        CHECK(recount(&row).refusal == (right ? 0 : 11));
        CHECK(recount(&row).totals.of[8] == (right ? row.length : 0));
        const size_t numbers[] = {0,  1,  row.length / 2, row.length - 1, row.length,
                                  63, 64, 65,             SIZE_MAX};
        for (size_t i = 0; i < sizeof numbers / sizeof *numbers; i++) {
            size_t at = numbers[i];
            trying("session %zu of a row of %zu", at, row.length);
            struct sessions copy = row;
            CHECK(row_hello(&copy, at, 1).refusal == (right && at < row.length ? 0 : 11));
        }
    }
}

/* Rows whose lengths would be right if 8 or 16 bits were all that counts; 11 before 10. */
static void rows_far_over(void)
{
    static struct tacit_session fresh_row[65537];
    static const size_t lengths[] = {65, 256, 257, 320, 65536, 65537};
    const struct tacit_limits limits = tacit_no_limits();
    struct tacit_totals totals = {{0}};
    for (size_t i = 0; i < 2 * sizeof lengths / sizeof *lengths; i++) {
        size_t length = lengths[i / 2], size = length * sizeof *fresh_row;
        trying("a row of %zu sessions", length);
        fresh_row[length - 1].state = i % 2 ? TACIT_NO_STATE : TACIT_READY;
        const uint8_t *octets = (const uint8_t *)fresh_row;
        struct tacit_session *row = (void *)lend(ROW, octets, size);
        CHECK(tacit_row_count(row, length, 1).refusal == 11);
        CHECK(tacit_recount(row, length).refusal == 11);
        CHECK(tacit_row_hello(row, length, 0, &totals, 1).refusal == 11);
        CHECK(tacit_row_initialization(row, length, length - 1, limits, &totals, NULL, 0).refusal ==
              11);
        CHECK(tacit_row_mismatch(row, length, length, &totals).refusal == 11);
        CHECK(margin_kept(ROW, size));
        CHECK(row[0].state == TACIT_READY && row[0].flags == 0 && row[0].hello == 0);
        CHECK(row[length - 1].state == fresh_row[length - 1].state);
        fresh_row[length - 1].state = TACIT_READY;
    }
}

/* The longest TLV of a type that is passed over, to make up this length. */
static void fill(uint8_t *area, size_t length)
{
    memset(area, 0, length);
    area[0] = 0x85;
    area[1] = 0x80;
    area[2] = (uint8_t)((length - 4) >> 8);
    area[3] = (uint8_t)(length - 4);
}

static void areas(void)
{
    static uint8_t area[1 << 20];
    static const size_t rows[] = {4,     5,     4095,  4096,  4097,   4098,       65535,  65536,
                                  65537, 65540, 65545, 69631, 69632, 131072 + 9, 1 << 20};
    for (size_t i = 0; i < sizeof rows / sizeof *rows; i++) {
        size_t length = rows[i];
        trying("an area of %zu octets", length);
        uint8_t wanted = length > TACIT_AREA_MOST ? 1 : 0;
        fill(area, length);
        CHECK(read_area(area, length).refusal == wanted);
        struct record record = fresh(APP(4));
        CHECK(initialization(&record, area, length).refusal == wanted);
        record = opened(APP(4), "");
        CHECK(capability(&record, area, length).refusal == wanted);
        struct sessions row = {.length = 2};
        row.at[0] = row.at[1] = session_in(&record);
        row.totals = walked(&row);
        struct row_call call = {.at = 1,
                                .event = {.which = TACIT_EVENT_CAPABILITY},
                                .area = area,
                                .area_length = length};
        CHECK(row_event(&row, call).refusal == wanted);
        row_closed(&row, 1);
        call.event.which = TACIT_EVENT_INITIALIZATION;
        CHECK(row_event(&row, call).refusal == wanted);
    }
}

/* As many elements as fit, the one that counts being the last, or the first. */
static void full_areas(void)
{
    uint8_t area[4096] = {0x85, 0x0F, 0x0F, 0xF9, 0x80};
    size_t length = 4 + 0x0FF9;
    for (size_t at = 5; at < length; at += 4)
        area[at] = 0xFF;
    area[length - 4] = 0;
    area[length - 3] = 7;
    struct tacit_reading reading = read_area(area, length);
    CHECK(reading.refusal == 0 && reading.tac.start == 4 && reading.tac.length == 0x0FF9);
    struct record record = fresh(APP(7));
    CHECK(initialization(&record, area, length).outcome == TACIT_DONE);
    CHECK(kinds(&record) == TACIT_KIND_SET(8));

    /* The first names 4 with E = 0, and all that follow name 7, or 4 again, with E = 1. */
    for (size_t at = 5; at < length; at += 4)
        memcpy(area + at, (const uint8_t[]){0, at % 8 == 1 ? 7 : 4, at == 5 ? 0 : 0x80, 0}, 4);
    CHECK(area[6] == 4 && area[10] == 7 && area[14] == 4);
    record = opened(APP(4) | APP(7), "850F0005 80 00048000");
    CHECK(capability(&record, area, length).outcome == TACIT_DONE);
    CHECK(kinds(&record) == TACIT_KIND_SET(8));

    uint8_t sac[4096] = {0x85, 0x0D, 0x0F, 0xFC, 0x80};
    for (size_t at = 5; at < sizeof sac; at++)
        sac[at] = at % 2 ? 0xC0 : 0x40;
    record = opened(APP(7), "");
    CHECK(capability(&record, sac, sizeof sac).outcome == TACIT_DONE);
    CHECK(sac[sizeof sac - 1] == 0xC0);
    CHECK(kinds(&record) == (FREE_KINDS & ~TACIT_KIND_SET(8)));
}

enum { LARGEST_ROOM = 40 };

static void fill_room(uint8_t *room, uint8_t *as_found)
{
    for (size_t i = 0; i < LARGEST_ROOM; i++)
        room[i] = as_found[i] = (uint8_t)(0x5A + i);
}

/* A change to be written, with this much room: 17 octets and no other, or 8 and none. */
static void expect_written(struct tacit_answer answer, size_t length, const uint8_t *room,
                           const uint8_t *as_found)
{
    size_t written = length < 17 ? 0 : 17;
    CHECK(answer.refusal == (length < 17 ? 8 : 0));
    CHECK(answer.written == written);
    CHECK(memcmp(room + written, as_found + written, LARGEST_ROOM - written) == 0);
}

static void rooms(void)
{
    for (size_t length = 0; length <= LARGEST_ROOM; length++) {
        trying("a room of %zu octets", length);
        uint8_t room[LARGEST_ROOM], as_found[LARGEST_ROOM];
        fill_room(room, as_found);
        struct record record = opened(APP(4) | APP(7), dynamic_fec129);
        struct tacit_answer answer = local_change(&record, 5, true, room, length);
        expect_written(answer, length, room, as_found);
        /* Neither a mismatch nor a change that is not written touches it. */
        memcpy(as_found, room, sizeof room);
        answer = local_change(&record, 7, false, room, length);
        CHECK(answer.written == 0);
        CHECK(answer.refusal == (length < 17 ? 8 : 0));
        CHECK(answer.outcome == (length < 17 ? TACIT_DONE : TACIT_MISMATCH));
        record = fresh(APP(4));
        CHECK(local_change(&record, 4, false, room, length).outcome == TACIT_DONE);
        CHECK(memcmp(room, as_found, sizeof room) == 0);
    }
}

static void rooms_in_rows(void)
{
    for (size_t length = 0; length <= LARGEST_ROOM; length++) {
        trying("a room of %zu octets", length);
        uint8_t room[LARGEST_ROOM], as_found[LARGEST_ROOM];
        fill_room(room, as_found);
        struct record record = opened(APP(4) | APP(7), dynamic_fec129);
        struct sessions row = {.at = {session_in(&record)}, .length = 1};
        struct tacit_answer answer = row_local_change(&row, 0, 5, true, room, length);
        expect_written(answer, length, room, as_found);
    }
}

/* 14 octets and no other, or 8 and none; what changes nothing needs no room. */
static void rooms_of_wishes(void)
{
    for (size_t length = 0; length <= LARGEST_ROOM; length++) {
        trying("a room of %zu octets", length);
        uint8_t room[LARGEST_ROOM], as_found[LARGEST_ROOM];
        fill_room(room, as_found);
        struct record record = opened(APP(4) | APP(7), dynamic_fec129);
        CHECK(wish(&record, 2, 2, true, room, length).answer.outcome == TACIT_UNCHANGED);
        CHECK(memcmp(room, as_found, sizeof room) == 0);
        struct tacit_wished wished = wish(&record, 2, 3, true, room, length);
        size_t written = length < 14 ? 0 : 14;
        CHECK(wished.answer.refusal == (length < 14 ? 8 : 0));
        CHECK(wished.answer.written == written && wished.wishes == (length < 14 ? 2 : 6));
        CHECK(memcmp(room + written, as_found + written, LARGEST_ROOM - written) == 0);
    }
}

/* As many octets as the SAC has, by its own length, and no other. */
static void rooms_of_sacs(void)
{
    static const uint8_t needed[16] = {0, 6, 6, 7, 6, 7, 7, 8, 6, 7, 7, 8, 7, 8, 8, 9};
    for (uint32_t wishes = 0; wishes < 16; wishes++) {
        for (size_t length = 0; length <= LARGEST_ROOM; length++) {
            trying("a room of %zu octets for wishes %lX", length, (unsigned long)wishes);
            uint8_t room[LARGEST_ROOM], as_found[LARGEST_ROOM];
            fill_room(room, as_found);
            struct tacit_written answer = wish_sac(wishes, room, length);
            size_t written = length < needed[wishes] ? 0 : needed[wishes];
            CHECK(answer.refusal == (length < needed[wishes] ? 8 : 0));
            CHECK(answer.written == written);
            CHECK(memcmp(room + written, as_found + written, LARGEST_ROOM - written) == 0);
        }
    }
}

/* Lengths that are right only if their upper 32 bits are lost. */

static const size_t more = (size_t)1 << 32;

static uint8_t *lend_more(void)
{
    uint8_t *octets = mmap(NULL, more + 4096, PROT_READ | PROT_WRITE,
                           MAP_PRIVATE | MAP_ANONYMOUS | MAP_NORESERVE, -1, 0);
    if (octets != MAP_FAILED)
        return octets;
    puts("  skipped: this machine does not lend 4 GiB of addresses");
    return NULL;
}

static void beyond_32_bits(void)
{
    uint8_t *octets = lend_more();
    if (octets == NULL)
        return;
    uint8_t *record = octets;
    size_t right = TACIT_RECORD_LENGTH;
    CHECK(tacit_create(record, more + right, fec129) == 10);
    CHECK(record[0] == 0);
    CHECK(tacit_create(record, right, fec129) == 0);
    CHECK(!tacit_sound(record, more + right));
    CHECK(tacit_state(record, more + right) == TACIT_NO_STATE);
    CHECK(tacit_permitted(record, more + right, 0).refusal == 10);
    CHECK(tacit_permitted_kinds(record, more + right).refusal == 10);
    CHECK(tacit_why_not(record, more + right, 0).refusal == 10);
    CHECK(tacit_retry_interval(record, more + right).refusal == 10);
    CHECK(tacit_hello(record, more + right, 1).refusal == 10);
    CHECK(tacit_mismatch(record, more + right).refusal == 10);
    CHECK(tacit_closed(record, more + right).refusal == 10);
    CHECK(tacit_initialization(record, more + right, NULL, 0).refusal == 10);
    CHECK(tacit_capability(record, more + right, NULL, 0).refusal == 10);
    CHECK(tacit_local_change(record, more + right, 4, true, NULL, 0).refusal == 10);
    CHECK(tacit_wish(record, more + right, 0, 1, true, NULL, 0).answer.refusal == 10);
    CHECK(tacit_sound(record, right));

    uint8_t *area = octets + 1024;
    CHECK(tacit_read(area, more).refusal == 1);
    CHECK(tacit_initialization(record, right, area, more).refusal == 1);
    struct octets opening = hex(dynamic_fec129);
    CHECK(tacit_initialization(record, right, opening.at, opening.length).outcome == TACIT_DONE);
    CHECK(tacit_capability(record, right, area, more).refusal == 1);

    uint8_t *room = octets + 2048;
    struct tacit_answer answer = tacit_local_change(record, right, 4, true, room, more);
    CHECK(answer.refusal == 0 && answer.written == 17);
    CHECK(room[16] == 0 && room[15] == 0x80 && room[17] == 0);
    room += 32;
    CHECK(tacit_wish(record, right, 0, 4, true, room, more).answer.written == 14);
    CHECK(room[13] == 0xC0 && room[14] == 0);
    room += 32;
    CHECK(tacit_wish_sac(9, room, more).written == 7);
    CHECK(room[6] == 0xC0 && room[7] == 0);
    munmap(octets, more + 4096);
}

static void moves_beyond_32_bits(void)
{
    uint8_t *octets = lend_more();
    if (octets == NULL)
        return;
    const struct octets old = hex("1400 0100 00 07 4800 0000 0000 00 00 00000000 01000000");
    uint8_t *kind1 = octets, *kind2 = octets + 1024, room[TACIT_RECORD_LENGTH] = {0};
    memcpy(kind1, old.at, old.length);
    CHECK(tacit_forward(kind1, more + 22, room, 24).refusal == 10 && room[0] == 0);
    CHECK(tacit_forward(kind1, 22, kind2, more + 24).refusal == 10 && kind2[0] == 0);
    CHECK(tacit_forward(kind1, 22, kind2, 24).refusal == 0 && kind2[0] == 22);
    CHECK(tacit_back(kind2, more + 24, room, 22) == 10 && room[0] == 0);
    kind1[0] = 0;
    CHECK(tacit_back(kind2, 24, kind1, more + 22) == 10 && kind1[0] == 0);
    CHECK(tacit_back(kind2, 24, kind1, 22) == 0 && same(kind1, old.at, old.length));
    munmap(octets, more + 4096);
}

static void rows_beyond_32_bits(void)
{
    uint8_t *octets = lend_more();
    if (octets == NULL)
        return;
    uint8_t *record = octets, *area = octets + 1024, *room = octets + 2048;
    const size_t right = TACIT_RECORD_LENGTH;
    const struct tacit_limits limits = tacit_no_limits();
    struct tacit_totals totals = {{0}};
    struct tacit_session session = {.flags = TACIT_FLAG_USES_TAC, .enabled = APP(7)};
    CHECK(tacit_store(session, record, more + right) == 10 && record[0] == 0);
    CHECK(tacit_store(session, record, right) == 0);
    CHECK(tacit_load(record, more + right).refusal == 10);

    CHECK(tacit_row_hello(&session, 1, more, &totals, 1).refusal == 11);
    CHECK(tacit_row_initialization(&session, 1, 0, limits, &totals, area, more).refusal == 1);
    struct octets opening = hex(dynamic_fec129);
    CHECK(tacit_row_initialization(&session, 1, 0, limits, &totals, opening.at, opening.length)
              .outcome == TACIT_DONE);
    CHECK(tacit_row_capability(&session, 1, 0, &totals, area, more).refusal == 1);
    struct tacit_answer answer =
        tacit_row_local_change(&session, 1, 0, &totals, 4, true, room, more);
    CHECK(answer.refusal == 0 && answer.written == 17);
    CHECK(room[16] == 0 && room[15] == 0x80 && room[17] == 0);
    CHECK(session.hello == 0 && session.next == 1);
    munmap(octets, more + 4096);
}

void lengths(void)
{
    test("NULL with length 0", nothing_at_all);
    test("NULL with length 0, for rows", no_row_at_all);
    test("records of 0 to 64 octets", records);
    test("rows of 0 to 72 sessions", rows_of_sessions);
    test("rows of far more than 64 sessions", rows_far_over);
    test("areas around 4,096 octets and far over", areas);
    test("areas full of elements", full_areas);
    test("rooms of 0 to 40 octets", rooms);
    test("rooms of 0 to 40 octets, in rows", rooms_in_rows);
    test("rooms of 0 to 40 octets, for wishes", rooms_of_wishes);
    test("rooms of 0 to 40 octets, for the SAC of an Initialization", rooms_of_sacs);
    test("lengths beyond 32 bits", beyond_32_bits);
    test("lengths beyond 32 bits, of moves", moves_beyond_32_bits);
    test("lengths beyond 32 bits, in rows", rows_beyond_32_bits);
}
