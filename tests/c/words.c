/* The texts of the header. */
#include "harness.h"

#include <stdio.h>
#include <string.h>

/* The set of the numbers from first to last. */
static uint32_t from_to(uint32_t first, uint32_t last)
{
    return (UINT32_C(2) << last) - (UINT32_C(1) << first);
}

/* Texts for the numbers of this set, all different, and "unknown" for anything else. */
static void expect_texts(const char *(*text)(uint32_t), uint32_t set)
{
    for (uint32_t number = 0; number < 300; number++) {
        trying("the text for %lu", (unsigned long)number);
        bool means = number < 32 && (set >> number & 1) != 0;
        CHECK((strcmp(text(number), "unknown") != 0) == means);
        for (uint32_t other = 0; means && other < number; other++)
            CHECK(strcmp(text(number), text(other)) != 0);
        for (uint32_t upper = 512; means && upper != 0; upper <<= 1)
            CHECK(strcmp(text(upper | number), "unknown") == 0);
    }
    CHECK(strcmp(text(UINT32_MAX), "unknown") == 0);
}

static void texts(void)
{
    expect_texts(tacit_refusal_text, from_to(0, 13) | from_to(15, 16));
    expect_texts(tacit_outcome_text, from_to(0, 3));
    expect_texts(tacit_state_text, from_to(0, 3));
    expect_texts(tacit_why_text, from_to(0, 6));
    expect_texts(tacit_kind_text, from_to(0, 9));
    expect_texts(tacit_capability_text, from_to(1, 2) | from_to(4, 4));
    expect_texts(tacit_application_text, from_to(1, 13));
    expect_texts(tacit_sac_app_text, from_to(1, 4));
    CHECK(strcmp(tacit_refusal_text(8), "too little room for what is to be written") == 0);
    CHECK(strcmp(tacit_refusal_text(10),
                 "record, session or wishes not sound, or record not of its size") == 0);
    CHECK(strcmp(tacit_refusal_text(12), "limit over 64") == 0);
    CHECK(strcmp(tacit_refusal_text(13),
                 "capability held, and a record of kind 1 has no place for it") == 0);
    CHECK(strcmp(tacit_refusal_text(15), "no SAC App") == 0);
    CHECK(strcmp(tacit_refusal_text(16),
                 "total outside 0 to 64: the totals are not those of the row") == 0);
    CHECK(strcmp(tacit_outcome_text(3), "at the limit") == 0);
    CHECK(strcmp(tacit_why_text(2), "disabled by the peer") == 0);
    CHECK(strcmp(tacit_why_text(5), "the capability that it needs is not held here") == 0);
    CHECK(strcmp(tacit_why_text(6), "the capability that it needs is not held by the peer") == 0);
    CHECK(strcmp(tacit_kind_text(8), "Generalized PWid") == 0);
    CHECK(strcmp(tacit_capability_text(1), "P2MP") == 0);
    CHECK(strcmp(tacit_capability_text(2), "MP2MP") == 0);
    CHECK(strcmp(tacit_capability_text(4), "HSMP") == 0);
    CHECK(strcmp(tacit_application_text(4), "LDPv4 Remote LFA") == 0);
    CHECK(strcmp(tacit_sac_app_text(1), "IPv4 prefixes") == 0);
    CHECK(strcmp(tacit_sac_app_text(4), "FEC 129 pseudowires") == 0);
}

/* The numbers of the rules, by the header's names. */
static void names(void)
{
    CHECK(TACIT_REFUSED_ROW == 11 && TACIT_REFUSED_LIMIT == 12 && TACIT_REFUSED_APP == 15);
    CHECK(TACIT_REFUSED_CAPABILITIES == 13 && TACIT_REFUSED_TOTAL == 16 && TACIT_KINDS == 10);
    CHECK(TACIT_AT_LIMIT == 3);
    CHECK(TACIT_PERMITTED == 0 && TACIT_NOT_OPEN == 1 && TACIT_DISABLED_BY_PEER == 2);
    CHECK(TACIT_NOT_ENABLED == 3 && TACIT_NOT_LISTED == 4);
    CHECK(TACIT_CAPABILITY_NOT_OURS == 5 && TACIT_CAPABILITY_NOT_THEIRS == 6);
    CHECK(TACIT_CAPABILITY_P2MP == 1 && TACIT_CAPABILITY_MP2MP == 2);
    CHECK(TACIT_CAPABILITY_HSMP == 4 && TACIT_ALL_CAPABILITIES == 7);
    CHECK(TACIT_RECORD_LENGTH == 24 && TACIT_KIND1_LENGTH == 22);
    CHECK(TACIT_ROW_MOST == 64 && TACIT_LIMIT_MOST == 64 && TACIT_APPLICATIONS == 13);
    CHECK(TACIT_EVENT_INITIALIZATION == 0 && TACIT_EVENT_CAPABILITY == 1);
    CHECK(TACIT_EVENT_LOCAL_CHANGE == 2 && TACIT_EVENT_MISMATCH == 3);
    CHECK(TACIT_EVENT_HELLO == 4 && TACIT_EVENT_CLOSED == 5);
    CHECK(TACIT_SAC_IPV4_PREFIX == 1 && TACIT_SAC_IPV6_PREFIX == 2);
    CHECK(TACIT_SAC_FEC128_PW == 3 && TACIT_SAC_FEC129_PW == 4);
    CHECK(TACIT_SAC_SET(1) == 1 && TACIT_SAC_SET(4) == 8 && TACIT_ALL_SAC == 15);
    CHECK(TACIT_WISH_LENGTH == 14 && TACIT_SAC_MOST == 9 && TACIT_MESSAGE_AREA == 8);
}

static void states(void)
{
    struct record record = fresh(0);
    CHECK(state(&record) == TACIT_READY);
    record.octets[4] = 4;
    CHECK(state(&record) == TACIT_NO_STATE);
    CHECK(strcmp(tacit_state_text(state(&record)), "unknown") == 0);
    CHECK(strcmp(tacit_state_text(load(&record).session.state), "unknown") == 0);
}

static void version(void)
{
    char text[32];
    snprintf(text, sizeof text, "%d.%d.%d", TACIT_VERSION / 10000, TACIT_VERSION / 100 % 100,
             TACIT_VERSION % 100);
    CHECK(strcmp(text, TACIT_VERSION_TEXT) == 0);
}

/* ---- One line for an answer ---- */

#define LINE_MOST 600 /* more than any line has */

/* The line in len octets of room, which must be cut where it must and touch nothing else. */
static size_t line_in(char *line, size_t len, struct tacit_answer answer)
{
    uint8_t found[LINE_MOST];
    memset(found, 0xA5, sizeof found);
    char *text = (char *)lend(ROOM, found, len);
    size_t whole = tacit_answer_text(text, len, answer);
    size_t kept = whole < len ? whole + 1 : len;
    CHECK(margin_kept(ROOM, len));
    CHECK(len == 0 || (text[kept - 1] == 0 && strlen(text) == kept - 1));
    CHECK(len == 0 || memcmp(text + kept, found, len - kept) == 0);
    if (len != 0)
        memcpy(line, text, kept);
    return whole;
}

static void expect_line(struct tacit_answer answer, const char *wanted)
{
    trying("the line '%s'", wanted);
    char line[LINE_MOST];
    CHECK(line_in(line, sizeof line, answer) == strlen(wanted));
    CHECK(strcmp(line, wanted) == 0);
}

static void answer_lines(void)
{
    expect_line((struct tacit_answer){0, 0, 0x180, 0, 17},
                "done; lost PWid, Generalized PWid; 17 octets written");
    expect_line((struct tacit_answer){0, 0, 0, 0, 0}, "done");
    expect_line((struct tacit_answer){0, 1, 0, 0, 0}, "unchanged");
    expect_line((struct tacit_answer){0, 2, 1, 0, 0}, "mismatch; lost IPv4 prefix");
    expect_line((struct tacit_answer){0, 3, 0, 0, 0}, "at the limit");
    expect_line((struct tacit_answer){0, 0, 0x1, 0x202, 0},
                "done; lost IPv4 prefix; gained IPv6 prefix, P2MP PW Upstream");
    expect_line((struct tacit_answer){7, 0, 0, 0, 0},
                "refused, number 7: event not for this state");
    expect_line((struct tacit_answer){12, 0, 0, 0, 0}, "refused, number 12: limit over 64");
    expect_line((struct tacit_answer){200, 9, 1, 1, 1}, "refused, number 200: unknown");
    expect_line((struct tacit_answer){0, 255, 0x8400, 0, 65535},
                "unknown (255); lost unknown (10), unknown (15); 65535 octets written");
    expect_line((struct tacit_answer){0, 0, 0, 0, 10}, "done; 10 octets written");
    expect_line((struct tacit_answer){0, 0, 0, 0, 14}, "done; 14 octets written");
    expect_line((struct tacit_answer){15, 0, 0, 0, 0}, "refused, number 15: no SAC App");
    expect_line((struct tacit_answer){16, 0, 0, 0, 0},
                "refused, number 16: total outside 0 to 64: the totals are not those of the row");
}

/* Every refusal and every outcome there can be, by the texts of their numbers. */
static void answer_numbers(void)
{
    for (unsigned number = 0; number < 256; number++) {
        char wanted[LINE_MOST];
        uint8_t octet = (uint8_t)number;
        snprintf(wanted, sizeof wanted, "refused, number %u: %s", number,
                 tacit_refusal_text(number));
        expect_line((struct tacit_answer){octet, 0, 0, 0, 0}, number == 0 ? "done" : wanted);
        snprintf(wanted, sizeof wanted, number <= 3 ? "%s" : "%s (%u)", tacit_outcome_text(number),
                 number);
        expect_line((struct tacit_answer){0, octet, 0, 0, 0}, wanted);
    }
}

/* One kind at a time, lost and gained, and every number of octets written. */
static void answer_sets(void)
{
    for (unsigned kind = 0; kind < 16; kind++) {
        char name[32], wanted[LINE_MOST];
        uint16_t set = (uint16_t)(1u << kind);
        snprintf(name, sizeof name, kind <= 9 ? "%s" : "%s (%u)", tacit_kind_text(kind), kind);
        snprintf(wanted, sizeof wanted, "done; lost %s", name);
        expect_line((struct tacit_answer){0, 0, set, 0, 0}, wanted);
        snprintf(wanted, sizeof wanted, "done; gained %s", name);
        expect_line((struct tacit_answer){0, 0, 0, set, 0}, wanted);
    }
    for (uint32_t written = 1; written <= 65535; written++) {
        char line[64], wanted[64];
        trying("%lu octets written", (unsigned long)written);
        snprintf(wanted, sizeof wanted, "done; %lu octets written", (unsigned long)written);
        tacit_answer_text(line, sizeof line, (struct tacit_answer){0, 0, 0, 0, (uint16_t)written});
        CHECK(strcmp(line, wanted) == 0);
    }
}

/*
 * Cut at every length: the start of the whole line, and the whole's length all
 * the same. The last is the longest that there is.
 */
static void answer_cut(void)
{
    static const struct tacit_answer answers[] = {
        {0, 0, 0x180, 0, 17}, {10, 0, 0, 0, 0}, {0, 1, 0, 0, 0}, {0, 255, 0xFFFF, 0xFFFF, 65535}};
    for (size_t i = 0; i < sizeof answers / sizeof *answers; i++) {
        char all[LINE_MOST], cut[LINE_MOST];
        size_t whole = line_in(all, sizeof all, answers[i]);
        for (size_t len = 0; len <= whole + 3; len++) {
            trying("answer %zu in %zu octets", i, len);
            memset(cut, 0, sizeof cut);
            CHECK(line_in(cut, len, answers[i]) == whole);
            size_t kept = len == 0 ? 0 : len <= whole ? len - 1 : whole;
            CHECK(strlen(cut) == kept && memcmp(cut, all, kept) == 0);
        }
        CHECK(tacit_answer_text(NULL, 0, answers[i]) == whole && whole < TACIT_ANSWER_TEXT_MOST);
    }
}

void words(void)
{
    test("texts for a log", texts);
    test("numbers by their names", names);
    test("the state of a record, for a log", states);
    test("the version as a number and as a text", version);
    test("one line for an answer", answer_lines);
    test("one line for every refusal and outcome", answer_numbers);
    test("one line for every kind and every number of octets", answer_sets);
    test("one line cut at every length", answer_cut);
}
