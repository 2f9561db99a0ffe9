/*
 * The P2MP, MP2MP and HSMP capabilities: how they are read, who holds them through all events,
 * and what is permitted by them.
 */
#include "harness.h"

#include <string.h>

#define APP(n) TACIT_APP_SET(n)
#define KIND(k) TACIT_KIND_SET(k)
#define COUNT(list) (sizeof(list) / sizeof *(list))
#define ALL TACIT_ALL_KINDS

enum { P2MP = 1, MP2MP = 2, HSMP = 4, SETS = 8 };

/* The kinds that are permitted by capabilities that both ends hold. */
static uint32_t allowed_by(uint32_t both)
{
    static const uint16_t kinds[SETS] = {0x383, 0x387, 0x39B, 0x39F, 0x3E3, 0x3E7, 0x3FB, 0x3FF};
    return kinds[both];
}

/* ---- Areas ---- */

/* Puts a TLV of each capability of the set behind the area, with S where it is held. */
static void announce(struct octets *area, uint32_t set, uint32_t held)
{
    static const uint8_t types[3][2] = {{0x85, 0x08}, {0x85, 0x09}, {0x89, 0x02}};
    for (unsigned i = 0; i < 3; i++) {
        if ((set >> i & 1) == 0)
            continue;
        const uint8_t tlv[] = {types[i][0], types[i][1], 0, 1, (held >> i & 1) != 0 ? 0x80 : 0x00};
        memcpy(area->at + area->length, tlv, sizeof tlv);
        area->length += sizeof tlv;
    }
}

static struct octets announcing(const char *before, uint32_t set, uint32_t held)
{
    struct octets area = hex(before);
    announce(&area, set, held);
    return area;
}

static uint32_t ours(const struct record *record)
{
    return session_in(record).ours;
}

static uint32_t theirs(const struct record *record)
{
    return session_in(record).theirs;
}

/* Opens a fresh session with a peer that holds these, and otherwise says this. */
static struct record open_with(struct record record, const char *area, uint32_t peer)
{
    struct octets octets = announcing(area, peer, peer);
    struct tacit_answer answer = initialization(&record, octets.at, octets.length);
    CHECK(answer.refusal == 0 && answer.outcome == TACIT_DONE);
    CHECK(theirs(&record) == peer);
    return record;
}

/* ---- Reading ---- */

static void reading(void)
{
    static const struct {
        const char *area;
        uint8_t refusal, capabilities, holding;
    } rows[] = {
        {"", 0, 0, 0},
        {"85080001 80", 0, P2MP, P2MP},
        {"85090001 80", 0, MP2MP, MP2MP},
        {"89020001 80", 0, HSMP, HSMP},
        {ALL_THREE, 0, 7, 7},
        {"89020001 80 85090001 00 85080001 80", 0, 7, P2MP | HSMP},
        /* S is the top bit, and no other is read. */
        {"85080001 00", 0, P2MP, 0},
        {"85090001 7F", 0, MP2MP, 0},
        {"89020001 FF", 0, HSMP, HSMP},
        /* U and F are not read, outside 0x0500 to 0x05FF neither. */
        {"05080001 80", 0, P2MP, P2MP},
        {"45090001 80", 0, MP2MP, MP2MP},
        {"09020001 80", 0, HSMP, HSMP},
        {"49020001 00", 0, HSMP, 0},
        {"C9020001 80", 0, HSMP, HSMP},
        /* Their neighbours are others, of any length and as often as they like. */
        {"05070000 05070002 8080 050A0000 050A0000", 0, 0, 0},
        {"89010000 89030000 89030002 8080", 0, 0, 0},
        {"09010001 80", 4, 0, 0},
        {"09030001 80", 4, 0, 0},
        {"08020001 80", 4, 0, 0},
        {"0A020001 80", 4, 0, 0},
        {"29020001 80", 4, 0, 0},
        {"25080001 80", 4, 0, 0},
        /* One octet and no other length. */
        {"85080000", 3, 0, 0},
        {"85080002 8000", 3, 0, 0},
        {"85090000", 3, 0, 0},
        {"85090005 80 00000000", 3, 0, 0},
        {"89020000", 3, 0, 0},
        {"09020002 8080", 3, 0, 0},
        /* A second one, of whatever length and whatever S. */
        {"85080001 80 85080001 80", 5, 0, 0},
        {"85080001 00 05080001 80", 5, 0, 0},
        {"85090001 80 85090000", 5, 0, 0},
        {"89020001 80 09020002 8080", 5, 0, 0},
        {ALL_THREE "89020001 80", 5, 0, 0},
        {"85080001 80 850F0001 80 85080001 80", 5, 0, 0},
        /* Cut short comes first; the leftmost TLV at fault decides. */
        {"85080001", 2, 0, 0},
        {"85080002 80", 2, 0, 0},
        {"89020001 80 89020001", 2, 0, 0},
        {"85080001 80 85", 2, 0, 0},
        {"85080000 06000000", 3, 0, 0},
        {"06000000 85080000", 4, 0, 0},
        {"85090001 80 85090001 80 85080000", 5, 0, 0},
        {"85080000 85090001 80 85090001 80", 3, 0, 0},
        {"85060001 80 85080001 80 85060001 80", 5, 0, 0},
    };
    for (size_t i = 0; i < COUNT(rows); i++) {
        trying("area %s", rows[i].area);
        struct tacit_reading answer = read_text(rows[i].area);
        CHECK(answer.refusal == rows[i].refusal);
        CHECK(answer.capabilities == rows[i].capabilities && answer.holding == rows[i].holding);
        struct record record = fresh(APP(4));
        CHECK(initialization_text(&record, rows[i].area).refusal == rows[i].refusal);
        record = opened(APP(4), "");
        CHECK(capability_text(&record, rows[i].area).refusal == rows[i].refusal);
    }
}

/* Each set of them, with each set of S, alone and among the other types that are read. */
static void every_set(void)
{
    for (uint32_t set = 0; set < SETS; set++) {
        for (uint32_t held = 0; held < SETS; held++) {
            trying("capabilities %lX, S in %lX", (unsigned long)set, (unsigned long)held);
            struct octets area = announcing("", set, held);
            struct tacit_reading answer = read_area(area.at, area.length);
            CHECK(answer.refusal == 0 && answer.dynamic == 0);
            CHECK(answer.capabilities == set && answer.holding == (set & held));
            CHECK(answer.tac.length == 0 && answer.sac.length == 0);
            area = announcing("850D0002 80 90 85060001 80 850F0005 80 00078000", set, held);
            answer = read_area(area.at, area.length);
            CHECK(answer.refusal == 0 && answer.dynamic == 1);
            CHECK(answer.capabilities == set && answer.holding == (set & held));
            CHECK(answer.sac.start == 4 && answer.sac.length == 2);
            CHECK(answer.tac.start == 15 && answer.tac.length == 5);
        }
    }
}

/* ---- Creation ---- */

static void creation(void)
{
    for (uint32_t set = 0; set < 64; set++) {
        trying("capabilities %lX", (unsigned long)set);
        struct record record = {{7}, TACIT_RECORD_LENGTH};
        struct tacit_settings settings = {
            .enabled = APP(4), .first_number = 1, .capabilities = set};
        CHECK(create(&record, settings) == (set < SETS ? 0 : 6));
        if (set < SETS)
            CHECK(ours(&record) == set && theirs(&record) == 0);
        struct record shorter = {{7}, TACIT_KIND1_LENGTH};
        CHECK(create(&shorter, settings) == 10);
    }
}

/* ---- What is permitted ---- */

/* What opens kinds: the peer's area, what is enabled here, and the kinds without capabilities. */
static const struct opening {
    const char *area;
    uint32_t enabled;
    uint32_t kinds;
} openings[] = {
    {"", 0, ALL},
    {"85060001 80 850D0003 80 90 C0", APP(4), ALL & ~(KIND(0) | KIND(8))},
    {"850F0005 80 00038000", APP(3), 0x07C},
    {"850F0005 80 000B8000", APP(11), 0x07C},
    {"850F0009 80 00038000 000B8000", APP(3) | APP(11), 0x07C},
    /* Session Protection, of all ten kinds. */
    {"850F0005 80 00088000", APP(8), ALL},
    {"850F0009 80 00038000 00068000", APP(3) | APP(6), 0x0FC},
    {"850F0005 80 00048000", APP(3) | APP(4), 0x001},
    {"850F0005 80 00098000", APP(9), 0},
};

static struct record session_for(uint32_t capabilities, const struct opening *opening)
{
    struct record record = {{0}, TACIT_RECORD_LENGTH};
    CHECK(create(&record, (struct tacit_settings){.initiating = true, .active = true,
                                                  .uses_tac = true, .protected_kinds = ALL,
                                                  .enabled = opening->enabled, .first_number = 1,
                                                  .capabilities = capabilities}) == 0);
    return record;
}

/* Each set here with each set there; those that one end alone holds count for nothing. */
static void held_by_both(void)
{
    for (size_t i = 0; i < COUNT(openings); i++) {
        for (uint32_t both = 0; both < SETS * SETS; both++) {
            uint32_t here = both % SETS, there = both / SETS;
            trying("opening %zu, ours %lX, the peer's %lX", i, (unsigned long)here,
                   (unsigned long)there);
            struct record record = session_for(here, &openings[i]);
            struct octets area = announcing(openings[i].area, there, there);
            struct tacit_answer answer = initialization(&record, area.at, area.length);
            CHECK(answer.refusal == 0 && answer.outcome == TACIT_DONE);
            CHECK(ours(&record) == here && theirs(&record) == there);
            CHECK(kinds(&record) == (openings[i].kinds & allowed_by(here & there)));
            CHECK(answer.gained == kinds(&record));
        }
    }
}

/* The session does not use TAC: the peer's list has no effect, its capabilities have. */
static void without_tac(void)
{
    for (uint32_t both = 0; both < SETS * SETS; both++) {
        uint32_t here = both % SETS, there = both / SETS;
        trying("ours %lX, the peer's %lX", (unsigned long)here, (unsigned long)there);
        struct record record = {{0}, TACIT_RECORD_LENGTH};
        create(&record, (struct tacit_settings){.first_number = 1, .capabilities = here});
        record = open_with(record, "850F0001 80 85060001 80", there);
        CHECK(kinds(&record) == allowed_by(here & there));
        struct octets area = announcing("850F0001 80", 7 & ~there, 7);
        struct tacit_answer answer = capability(&record, area.at, area.length);
        CHECK(answer.outcome == TACIT_DONE && theirs(&record) == 7);
        CHECK(answer.gained == (allowed_by(here) & ~allowed_by(here & there)));
    }
}

/* Why each kind may not be sent, a digit for each from kind 0 on. */
static void why(void)
{
    static const struct {
        const char *record;
        const char *reasons;
    } rows[] = {
        /* Not in force, with TAC and without: ours is asked before the peer's. */
        {"1600 0200 01 07 4800 0000 0000 00 00 00000000 01000000 00 00", "0055555000"},
        {"1600 0200 01 07 4800 0000 0000 00 00 00000000 01000000 00 07", "0055555000"},
        {"1600 0200 01 03 4800 0000 0000 00 00 00000000 01000000 07 00", "0066666000"},
        {"1600 0200 01 03 4800 0000 0000 00 00 00000000 01000000 07 07", "0000000000"},
        {"1600 0200 01 03 4800 0000 0000 00 00 00000000 01000000 03 05", "0006655000"},
        {"1600 0200 01 07 4800 0000 0000 00 00 00000000 01000000 06 02", "0050066000"},
        {"1600 0200 01 07 4800 0000 0000 00 00 00000000 01000000 04 05", "0055500000"},
        /* With kinds disabled by SAC, which are none of these. */
        {"1600 0200 01 07 4800 0000 0000 0F 00 00000000 01000000 01 00", "2265555220"},
        /* In force: not enabled and not listed come before the capability. */
        {"1600 0200 01 17 0C00 0C00 0000 00 00 00000000 01000000 00 00", "0355555333"},
        {"1600 0200 01 17 0C00 0C00 0000 00 00 00000000 01000000 07 00", "0366666333"},
        {"1600 0200 01 17 0C00 0C00 0000 00 00 00000000 01000000 07 02", "0360066333"},
        {"1600 0200 01 17 0C00 0800 0000 00 00 00000000 01000000 00 00", "0344444333"},
        {"1600 0200 01 17 0C00 0800 0000 00 00 00000000 01000000 07 00", "0344444333"},
        {"1600 0200 01 17 0800 0C00 0000 00 00 00000000 01000000 07 00", "0333333333"},
        {"1600 0200 01 17 0C00 0804 0000 00 00 00000000 01000000 00 07", "0344444333"},
        /* Kinds that Session Protection opens, 1 to 3 here. */
        {"1600 0200 01 17 8000 8000 0E00 00 00 00000000 01000000 01 03", "3005333333"},
        {"1600 0200 01 17 8000 8000 0E00 00 00 00000000 01000000 03 02", "3060333333"},
        {"1600 0200 01 17 8001 0001 0E00 00 00 00000000 01000000 00 00", "3444333333"},
        /* Not Open comes before all. */
        {"1600 0200 00 07 4800 0000 0000 00 00 00000000 01000000 00 00", "1111111111"},
        {"1600 0200 02 07 4800 0000 0000 00 00 00000000 01000000 07 00", "1111111111"},
    };
    for (size_t i = 0; i < COUNT(rows); i++) {
        struct record record = record_of(rows[i].record);
        for (uint32_t kind = 0; kind <= 9; kind++) {
            trying("why not kind %lu, record %s", (unsigned long)kind, rows[i].record);
            struct tacit_reason answer = why_not(&record, kind);
            CHECK(answer.refusal == 0 && answer.reason == rows[i].reasons[kind] - '0');
            CHECK(permitted(&record, kind).permitted == (rows[i].reasons[kind] == '0'));
        }
    }
}

/* What is common and what is used goes by the lists alone. */
static void common_without_labels(void)
{
    struct record record = holding(0, APP(3));
    struct tacit_answer answer = initialization_text(&record, "85060001 80 850F0005 80 00038000");
    CHECK(answer.outcome == TACIT_DONE && answer.gained == 0 && state(&record) == TACIT_OPEN);
    CHECK(kinds(&record) == 0);
    struct record second = fresh(APP(3));
    struct sessions row = {.at = {session_in(&record), session_in(&second)}, .length = 2};
    CHECK(row_count(&row, 3).count == 1);
    struct tacit_limits limits = set_limit(tacit_no_limits(), 3, 1).limits;
    const char *area = ALL_THREE "85060001 80 850F0005 80 00038000";
    CHECK(row_initialization(&row, 1, limits, area).outcome == TACIT_AT_LIMIT);
    CHECK(row.at[1].ours == 7 && row.at[1].theirs == 0);
    /* Without the application it is a mismatch, whatever both hold. */
    record = fresh(APP(4));
    CHECK(initialization_text(&record, area).outcome == TACIT_MISMATCH);
    CHECK(ours(&record) == 7 && theirs(&record) == 0);
}

/* ---- What an Initialization makes of them ---- */

/* Exactly those that are there, whatever their S and whatever an earlier one said. */
static void at_initialization(void)
{
    for (uint32_t earlier = 0; earlier < SETS; earlier++) {
        for (uint32_t set = 0; set < SETS; set++) {
            for (uint32_t held = 0; held < SETS; held++) {
                trying("first %lX, then %lX with S in %lX", (unsigned long)earlier,
                       (unsigned long)set, (unsigned long)held);
                struct record record = open_with(fresh(APP(4)), "85060001 80", earlier);
                CHECK(closed(&record).outcome == TACIT_DONE && theirs(&record) == 0);
                struct octets area = announcing("", set, held);
                struct tacit_answer answer = initialization(&record, area.at, area.length);
                CHECK(answer.outcome == TACIT_DONE && answer.gained == allowed_by(set));
                CHECK(theirs(&record) == set && ours(&record) == 7);
            }
        }
    }
}

/* ---- What a Capability message makes of them ---- */

/* From each set by each message: what is there with S comes, without S goes, the rest stays. */
static void at_capability(void)
{
    for (uint32_t before = 0; before < SETS; before++) {
        for (uint32_t set = 0; set < SETS; set++) {
            for (uint32_t held = 0; held < SETS; held++) {
                trying("held %lX, then %lX with S in %lX", (unsigned long)before,
                       (unsigned long)set, (unsigned long)held);
                uint32_t after = (before & ~set) | (set & held);
                struct octets area = announcing("", set, held);
                for (size_t i = 0; i < COUNT(openings); i++) {
                    struct record record = open_with(session_for(7, &openings[i]),
                                                     openings[i].area, before);
                    struct tacit_answer answer = capability(&record, area.at, area.length);
                    CHECK(answer.refusal == 0 && answer.outcome == TACIT_DONE);
                    CHECK(theirs(&record) == after && ours(&record) == 7);
                    uint32_t had = openings[i].kinds & allowed_by(before);
                    uint32_t has = openings[i].kinds & allowed_by(after);
                    CHECK(answer.lost == (had & ~has) && answer.gained == (has & ~had));
                }
            }
        }
    }
}

/* What is not ours is not gained, though the peer holds it from then on. */
static void announced_for_nothing(void)
{
    struct record record = opened_holding(MP2MP, APP(3), "850F0005 80 00038000");
    CHECK(capability_text(&record, "85080001 80").gained == 0 && theirs(&record) == P2MP);
    CHECK(why_not(&record, 2).reason == TACIT_CAPABILITY_NOT_OURS);
    CHECK(capability_text(&record, "85090001 80").gained == 0x018);
    CHECK(theirs(&record) == (P2MP | MP2MP));
    CHECK(capability_text(&record, "85080001 00").lost == 0 && theirs(&record) == MP2MP);
    CHECK(capability_text(&record, "85090001 00").lost == 0x018 && theirs(&record) == 0);
}

/* Together with the lists in one message. */
static void with_the_lists(void)
{
    struct record record = opened(APP(3) | APP(4), "85060001 80 850F0005 80 00048000");
    struct tacit_answer answer =
        capability_text(&record, "85080001 80 850F0009 80 00038000 00040000 850D0002 80 A0");
    CHECK(answer.outcome == TACIT_DONE && answer.lost == KIND(0) && answer.gained == KIND(2));
    answer = capability_text(&record, "850F0001 00 85080001 00 89020001 80");
    CHECK(answer.outcome == TACIT_DONE && answer.lost == KIND(2));
    CHECK(answer.gained == ((FREE_KINDS & ~KIND(1)) | KIND(5) | KIND(6)));
    CHECK(theirs(&record) == HSMP);
    /* A mismatch forgets those of its own message, too. */
    answer = capability_text(&record, ALL_THREE "850F0005 80 000A8000");
    CHECK(answer.outcome == TACIT_MISMATCH && theirs(&record) == 0 && ours(&record) == 7);
    CHECK(answer.lost == ((FREE_KINDS & ~KIND(1)) | KIND(5) | KIND(6)) && answer.gained == 0);
    /* A message that is refused changes none. */
    record = opened(APP(3), ALL_THREE "850F0005 80 00038000");
    CHECK(capability_text(&record, "85080001 00 85090001 00 06000000").refusal == 4);
    CHECK(capability_text(&record, "85080001 00 85080001 00").refusal == 5);
    CHECK(theirs(&record) == 7 && kinds(&record) == 0x07C);
}

/* ---- Leaving Open, and what does not leave it ---- */

static void leaving(void)
{
    for (unsigned ends = 0; ends < 8; ends++) {
        bool initiating = ends & 1, active = ends & 2, drops = ends & 4;
        trying("initiating %d, active %d, drops %d", initiating, active, drops);
        struct record fresh_one = {{0}, TACIT_RECORD_LENGTH};
        create(&fresh_one, (struct tacit_settings){.initiating = initiating, .active = active,
                                                   .uses_tac = true, .drops = drops,
                                                   .enabled = APP(3), .first_number = 1,
                                                   .capabilities = P2MP | HSMP});
        const struct record open = open_with(fresh_one, "85060001 80 850F0005 80 00038000", 7);
        CHECK(kinds(&open) == (KIND(2) | KIND(5) | KIND(6)));
        uint8_t room[TACIT_MESSAGE_LENGTH] = {0};
        struct record left[4] = {open, open, open, open};
        CHECK(closed(&left[0]).lost == kinds(&open));
        CHECK(mismatch(&left[1]).lost == kinds(&open));
        CHECK(capability_text(&left[2], "850F0005 80 00030000").lost == kinds(&open));
        CHECK(local_change(&left[3], 3, false, room, sizeof room).lost == kinds(&open));
        for (size_t i = 0; i < COUNT(left); i++)
            CHECK(ours(&left[i]) == (P2MP | HSMP) && theirs(&left[i]) == 0);
        /* Turned away at a limit it has none either. */
        struct sessions row = {.at = {session_in(&fresh_one)}, .length = 1};
        const struct tacit_limits nobody = {{0}};
        CHECK(row_initialization(&row, 0, nobody, ALL_THREE "850F0005 80 00038000").outcome ==
              TACIT_AT_LIMIT);
        CHECK(row.at[0].ours == (P2MP | HSMP) && row.at[0].theirs == 0);
    }
}

/* Hellos, changes and wishes leave both as they are. */
static void left_alone(void)
{
    uint8_t room[TACIT_MESSAGE_LENGTH] = {0};
    struct record record = open_with(holding(P2MP | MP2MP, APP(4)),
                                     "85060001 80 850F0009 80 00038000 00048000", MP2MP | HSMP);
    CHECK(hello(&record, 5).outcome == TACIT_DONE);
    CHECK(local_change(&record, 3, true, room, sizeof room).gained == 0x018);
    CHECK(wish(&record, 0, 1, true, room, sizeof room).answer.written == 14);
    CHECK(local_change(&record, 3, false, room, sizeof room).lost == 0x018);
    CHECK(capability_text(&record, "").outcome == TACIT_DONE);
    CHECK(capability_text(&record, "85060001 80 850D0002 80 90").lost == KIND(0));
    CHECK(ours(&record) == (P2MP | MP2MP) && theirs(&record) == (MP2MP | HSMP));
}

/* ---- The record ---- */

/* Each octet at each of its values, in each state. */
static void soundness(void)
{
    static const char *const rows[] = {
        "1600 0200 00 47 4800 0000 0000 00 00 05000000 01000000 00 00",
        "1600 0200 01 37 4800 4000 0300 09 00 00000000 01000000 00 00",
        "1600 0200 01 03 4800 0000 0300 00 00 00000000 01000000 00 00",
        "1600 0200 02 47 4800 0000 0000 00 00 05000000 01000000 00 00",
        "1600 0200 03 0F 4800 0000 0000 00 00 00000000 01000000 00 00",
    };
    for (size_t row = 0; row < COUNT(rows); row++) {
        for (unsigned value = 0; value < 256; value++) {
            trying("record %zu with capabilities %X", row, value);
            struct record record = record_of(rows[row]);
            bool open = record.octets[4] == TACIT_OPEN;
            record.octets[22] = (uint8_t)value;
            CHECK(sound(&record) == (value < SETS));
            CHECK(load(&record).refusal == (value < SETS ? 0 : 10));
            CHECK(load(&record).session.ours == (value < SETS ? value : 0));
            record.octets[22] = 0;
            record.octets[23] = (uint8_t)value;
            bool right = value < (open ? SETS : 1);
            CHECK(sound(&record) == right);
            CHECK(load(&record).refusal == (right ? 0 : 10));
            CHECK(load(&record).session.theirs == (right ? value : 0));
            record.octets[22] = 7;
            struct record copy = {{7}, TACIT_RECORD_LENGTH};
            CHECK(store(session_in(&record), &copy) == (right ? 0 : 10));
        }
    }
}

/* ---- Worked examples 1 and 8 ---- */

static void example1(void)
{
    for (uint32_t both = 0; both < SETS * SETS; both++) {
        uint32_t here = both % SETS, there = both / SETS;
        trying("ours %lX, the peer's %lX", (unsigned long)here, (unsigned long)there);
        struct octets area = announcing("", there, there);
        struct record record = holding(here, APP(4));
        struct tacit_answer answer = initialization(&record, area.at, area.length);
        CHECK(answer.outcome == TACIT_DONE && answer.gained == allowed_by(here & there));
    }
    CHECK(allowed_by(0) == (KIND(0) | KIND(1) | KIND(7) | KIND(8) | KIND(9)));
    CHECK(allowed_by(7) == ALL);
}

static void example8(void)
{
    for (uint32_t held = 0; held < SETS; held += 7) {
        trying("both hold %lX", (unsigned long)held);
        struct record record =
            open_with(holding(held, APP(7)), "850F0009 80 00048000 00078000", held);
        CHECK(kinds(&record) == KIND(8));
        CHECK(capability_text(&record, "850D0002 80 C0").lost == KIND(8));
        struct tacit_answer answer = capability_text(&record, "850F0001 00");
        CHECK(answer.outcome == TACIT_DONE && answer.lost == 0);
        CHECK(answer.gained == (held == 0 ? 0x283 : 0x2FF));
    }
}

void capabilities(void)
{
    test("capabilities read, row by row", reading);
    test("capabilities read, every set", every_set);
    test("capabilities at creation", creation);
    test("kinds by the capabilities that both ends hold", held_by_both);
    test("capabilities of a session without TAC", without_tac);
    test("why a kind that needs a capability may not be sent", why);
    test("an application that is common and sends no labels", common_without_labels);
    test("the peer's capabilities by an Initialization", at_initialization);
    test("the peer's capabilities by a Capability message", at_capability);
    test("capabilities that are announced and not ours", announced_for_nothing);
    test("capabilities and lists in one message", with_the_lists);
    test("the peer's capabilities after Open", leaving);
    test("what leaves capabilities alone", left_alone);
    test("capabilities in a sound record", soundness);
    test("example 1, with each set held", example1);
    test("example 8, with nothing held and with all", example8);
}
