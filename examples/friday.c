/*
 * The Friday cutover, replayed: two boxes on a ring whose application lists are
 * in different orders. Prints what each call answers, in words. Run it with
 * `make demo`; what it prints is kept in friday.txt.
 */
#include "tacit.h"

#include <stdio.h>
#include <string.h>

#define COUNT(list) (sizeof(list) / sizeof *(list))

/* West lacks one of east's five, and the order differs. */
static const uint8_t west_list[] = {1, 6, 7, 4};
static const uint8_t east_list[] = {1, 6, 4, 7, 10};

static uint8_t west[TACIT_RECORD_LENGTH];
static uint8_t east[TACIT_RECORD_LENGTH];

static unsigned unexpected;

static void expect(bool holds, const char *what)
{
    if (holds)
        return;
    unexpected++;
    printf("   NOT AS EXPECTED: %s\n", what);
}

/* ---- Words ---- */

static void print_octets(const char *title, const uint8_t *octets, size_t length)
{
    for (size_t i = 0; i < length; i++) {
        if (i % 24 == 0)
            printf("%s   %-13s", i == 0 ? "" : "\n", i == 0 ? title : "");
        printf(" %02X", octets[i]);
    }
    printf("\n");
}

static void print_applications(const char *title, const uint8_t *list, size_t count)
{
    printf("   %-13s", title);
    for (size_t i = 0; i < count; i++)
        printf("%s %u %s", i == 0 ? "" : ",", list[i], tacit_application_text(list[i]));
    printf("%s\n", count == 0 ? " none" : "");
}

static void print_kinds(const char *title, uint32_t set)
{
    printf("   %-13s", title);
    const char *before = " ";
    for (uint32_t kind = 0; kind <= 9; kind++) {
        if ((set & TACIT_KIND_SET(kind)) == 0)
            continue;
        printf("%s%s", before, tacit_kind_text(kind));
        before = ", ";
    }
    printf("%s\n", set == 0 ? " none" : "");
}

/* The kinds that may not be sent, and why, reason by reason. */
static void print_kept_back(const uint8_t *record)
{
    for (uint32_t reason = TACIT_NOT_OPEN; reason <= TACIT_CAPABILITY_NOT_THEIRS; reason++) {
        uint32_t set = 0;
        for (uint32_t kind = 0; kind <= 9; kind++)
            if (tacit_why_not(record, TACIT_RECORD_LENGTH, kind).reason == reason)
                set |= TACIT_KIND_SET(kind);
        if (set == TACIT_ALL_KINDS)
            printf("   %-13s every kind\n", "kept back");
        else if (set != 0)
            print_kinds("kept back", set);
        if (set != 0)
            printf("   %-13s %s\n", "  why", tacit_why_text(reason));
    }
}

static void print_answer(struct tacit_answer answer)
{
    if (answer.refusal != 0)
        printf("   %-13s refused, number %u: %s\n", "answer", answer.refusal,
               tacit_refusal_text(answer.refusal));
    else
        printf("   %-13s %s\n", "answer", tacit_outcome_text(answer.outcome));
    if (answer.lost != 0)
        print_kinds("lost", answer.lost);
    if (answer.gained != 0)
        print_kinds("gained", answer.gained);
}

static uint32_t print_session(const char *name, const uint8_t *record)
{
    uint32_t kinds = tacit_permitted_kinds(record, TACIT_RECORD_LENGTH).kinds;
    printf("   %-13s %s, retry interval %u\n", name,
           tacit_state_text(tacit_state(record, TACIT_RECORD_LENGTH)),
           tacit_retry_interval(record, TACIT_RECORD_LENGTH).interval);
    print_kinds("may be sent", kinds);
    print_kept_back(record);
    return kinds;
}

/* ---- Messages ---- */

static uint32_t set_of(const uint8_t *list, size_t count)
{
    uint32_t set = 0;
    for (size_t i = 0; i < count; i++)
        set |= TACIT_APP_SET(list[i]);
    return set;
}

/* A fresh session that supports this list. The active end is the initiating one here. */
static bool create(uint8_t *record, const uint8_t *list, size_t count, bool active)
{
    struct tacit_settings settings = {.initiating = active,
                                      .active = active,
                                      .uses_tac = true,
                                      .enabled = set_of(list, count),
                                      .first_number = 1};
    return tacit_create(record, TACIT_RECORD_LENGTH, settings) == 0;
}

/* The parameters of an Initialization: a dynamic peer and its list. */
static size_t initialization_area(uint8_t *area, const uint8_t *list, size_t count)
{
    static const uint8_t dynamic[] = {0x85, 0x06, 0x00, 0x01, 0x80};
    memcpy(area, dynamic, sizeof dynamic);
    uint8_t *tac = area + sizeof dynamic;
    tac[0] = 0x85;
    tac[1] = 0x0F;
    tac[2] = 0;
    tac[3] = (uint8_t)(1 + 4 * count);
    tac[4] = 0x80;
    for (size_t i = 0; i < count; i++) {
        uint8_t element[] = {0, list[i], 0x80, 0};
        memcpy(tac + 5 + 4 * i, element, sizeof element);
    }
    return sizeof dynamic + 5 + 4 * count;
}

static struct tacit_answer initialize(uint8_t *record, const uint8_t *list, size_t count)
{
    uint8_t area[64];
    size_t length = initialization_area(area, list, count);
    return tacit_initialization(record, TACIT_RECORD_LENGTH, area, length);
}

/* One end changes an application, and the other reads what it writes. */
static struct tacit_answer change(uint8_t *here, uint8_t *there, uint32_t ta_id, bool on,
                                  uint8_t *message)
{
    struct tacit_answer answer =
        tacit_local_change(here, TACIT_RECORD_LENGTH, ta_id, on, message, TACIT_MESSAGE_LENGTH);
    expect(answer.refusal == 0 && answer.written == TACIT_MESSAGE_LENGTH, "a message is written");
    return tacit_capability(there, TACIT_RECORD_LENGTH, message + TACIT_MESSAGE_AREA,
                            TACIT_MESSAGE_LENGTH - TACIT_MESSAGE_AREA);
}

/* ---- The old daemon's error ---- */

/* The applications that stand at one place in both lists. */
static size_t paired_by_position(uint8_t *pairs)
{
    size_t count = 0;
    for (size_t i = 0; i < COUNT(west_list) || i < COUNT(east_list); i++) {
        bool in_west = i < COUNT(west_list), in_east = i < COUNT(east_list);
        bool same = in_west && in_east && west_list[i] == east_list[i];
        printf("   place %zu       %-18s %-18s %s\n", i + 1,
               in_west ? tacit_application_text(west_list[i]) : "-",
               in_east ? tacit_application_text(east_list[i]) : "-", same ? "same" : "differ");
        if (same)
            pairs[count++] = west_list[i];
    }
    return count;
}

/* West's session where of east's list these alone are read; the kinds that it permits. */
static uint32_t open_with(uint8_t *record, const uint8_t *list, size_t count)
{
    create(record, west_list, COUNT(west_list), true);
    initialize(record, list, count);
    return tacit_permitted_kinds(record, TACIT_RECORD_LENGTH).kinds;
}

/* ---- The story ---- */

static void step(const char *title)
{
    static unsigned number;
    printf("\n%u. %s\n", ++number, title);
}

int main(void)
{
    const uint32_t pseudowires = TACIT_KIND_SET(TACIT_KIND_GENERALIZED_PWID);
    uint8_t area[64], message[TACIT_MESSAGE_LENGTH];
    struct tacit_answer answer;

    puts("THE FRIDAY CUTOVER, REPLAYED");
    puts("");
    puts("Two boxes on a ring share one targeted LDP session. West is ours: it initiates");
    puts("the session and opens the connection. East is the peer. Each tells the other");
    puts("which applications it supports. FEC 129 PW is the auto-discovered pseudowires;");
    puts("their labels are of the kind Generalized PWid.");

    step("The lists, each in its own order");
    print_applications("west", west_list, COUNT(west_list));
    print_applications("east", east_list, COUNT(east_list));
    expect(create(west, west_list, COUNT(west_list), true) &&
               create(east, east_list, COUNT(east_list), false),
           "both sessions are created");
    puts("   East's Hello has configuration number 41.");
    print_answer(tacit_hello(west, sizeof west, 41));
    print_session("west", west);

    step("East's Initialization arrives at west");
    size_t length = initialization_area(area, east_list, COUNT(east_list));
    print_octets("parameters", area, length);
    struct tacit_reading reading = tacit_read(area, length);
    printf("   %-13s %s; TAC of %u octets from octet %u; %s; %s\n", "read",
           tacit_refusal_text(reading.refusal), reading.tac.length, reading.tac.start,
           reading.sac.length != 0 ? "SAC present" : "no SAC",
           reading.dynamic ? "the peer takes Capability messages" : "the peer is not dynamic");
    answer = tacit_initialization(west, sizeof west, area, length);
    print_answer(answer);
    uint32_t right = print_session("west", west);
    expect(answer.refusal == 0 && answer.outcome == TACIT_DONE, "the session opens");
    expect((right & pseudowires) != 0, "the pseudowires' labels may be sent");
    expect(initialize(east, west_list, COUNT(west_list)).outcome == TACIT_DONE, "east opens too");

    step("What pairing by position would have made of the same lists");
    printf("   %-13s %-18s %s\n", "", "west", "east");
    uint8_t pairs[COUNT(west_list)];
    size_t paired = paired_by_position(pairs);
    print_applications("in common", pairs, paired);
    uint8_t misread[TACIT_RECORD_LENGTH];
    uint32_t wrong = open_with(misread, pairs, paired);
    print_kinds("may be sent", wrong);
    print_kinds("KEPT BACK", right & ~wrong);
    struct tacit_reason why =
        tacit_why_not(misread, sizeof misread, TACIT_KIND_GENERALIZED_PWID);
    printf("   %-13s %s\n", "  why", tacit_why_text(why.reason));
    puts("   Both boxes support these pseudowires. The session stays up, nothing is");
    puts("   refused, and the circuits stay dark. Nothing said why; tacit_why_not does.");
    expect((right & ~wrong) == pseudowires, "exactly the pseudowires are kept back");
    expect(why.reason == TACIT_NOT_LISTED, "as if east had not listed them");

    step("East withdraws FEC 129 PW");
    answer = change(east, west, TACIT_APP_FEC129_PW, false, message);
    print_octets("message", message, sizeof message);
    print_answer(answer);
    print_session("west", west);
    expect(answer.outcome == TACIT_DONE && answer.lost == pseudowires, "the pseudowires are lost");

    step("East restores FEC 129 PW");
    answer = change(east, west, TACIT_APP_FEC129_PW, true, message);
    print_octets("message", message, sizeof message);
    print_answer(answer);
    print_session("west", west);
    expect(answer.outcome == TACIT_DONE && answer.gained == pseudowires, "they are gained again");

    step("A hostile message");
    puts("   Its first TLV alone would end the negotiation and permit what it keeps back. Its");
    puts("   second claims two octets and has one.");
    const uint8_t hostile[] = {0x85, 0x0F, 0x00, 0x01, 0x00, 0x85, 0x0D, 0x00, 0x02, 0x80};
    uint8_t before[TACIT_RECORD_LENGTH];
    memcpy(before, west, sizeof before);
    print_octets("parameters", hostile, sizeof hostile);
    print_octets("before", before, sizeof before);
    answer = tacit_capability(west, sizeof west, hostile, sizeof hostile);
    print_octets("after", west, sizeof west);
    print_answer(answer);
    bool untouched = memcmp(before, west, sizeof west) == 0;
    printf("   %-13s %s\n", "the record", untouched ? "is untouched" : "HAS CHANGED");
    expect(answer.refusal == TACIT_REFUSED_CUT_SHORT && untouched, "it is refused, all of it");

    step("West's operator enables P2MP PW, which east has listed all along");
    answer = tacit_local_change(west, sizeof west, TACIT_APP_P2MP_PW, true, message,
                                sizeof message);
    print_answer(answer);
    printf("   %-13s %u octets, to be sent to east\n", "written", answer.written);
    print_octets("message", message, sizeof message);
    print_session("west", west);
    const uint32_t multipoint = TACIT_KIND_SET(TACIT_KIND_P2MP_PW_UPSTREAM);
    expect(answer.written == TACIT_MESSAGE_LENGTH && answer.gained == multipoint,
           "west writes a message and gains a kind");
    puts("   East reads the last 9 octets.");
    answer = tacit_capability(east, sizeof east, message + TACIT_MESSAGE_AREA,
                              sizeof message - TACIT_MESSAGE_AREA);
    print_answer(answer);
    print_session("east", east);
    expect(answer.gained == multipoint, "east gains it too");

    step("East withdraws one application after the other");
    const uint8_t leaving[] = {TACIT_APP_LDPV4_TUNNELING, TACIT_APP_LDPV4_REMOTE_LFA,
                               TACIT_APP_FEC128_PW, TACIT_APP_P2MP_PW};
    for (size_t i = 0; i < COUNT(leaving); i++) {
        answer = change(east, west, leaving[i], false, message);
        printf("   %-13s %s\n", "withdrawn", tacit_application_text(leaving[i]));
        print_kinds("lost", answer.lost);
        expect(answer.refusal == 0 && answer.outcome == TACIT_DONE, "west stays open");
    }
    puts("   Without FEC 129 PW nothing is left in common. East finds that itself and");
    puts("   writes no message.");
    answer = tacit_local_change(east, sizeof east, TACIT_APP_FEC129_PW, false, message,
                                sizeof message);
    print_answer(answer);
    print_session("east", east);
    expect(answer.outcome == TACIT_MISMATCH && answer.written == 0, "east finds the mismatch");
    puts("   East's Hello now has number 42. West records it.");
    print_answer(tacit_hello(west, sizeof west, 42));
    puts("   East's mismatch Notification reaches west.");
    answer = tacit_mismatch(west, sizeof west);
    print_answer(answer);
    print_session("west", west);
    expect(tacit_state(west, sizeof west) == TACIT_HELD &&
               tacit_retry_interval(west, sizeof west).interval == 65535,
           "west is held");

    step("Hellos while west is held");
    puts("   Number 42 once more:");
    answer = tacit_hello(west, sizeof west, 42);
    print_answer(answer);
    print_session("west", west);
    expect(answer.outcome == TACIT_UNCHANGED && tacit_state(west, sizeof west) == TACIT_HELD,
           "an equal number does not wake it");
    puts("   East's operator enables the applications again; number 43:");
    for (size_t i = 0; i < COUNT(east_list); i++)
        tacit_local_change(east, sizeof east, east_list[i], true, NULL, 0);
    answer = tacit_hello(west, sizeof west, 43);
    print_answer(answer);
    print_session("west", west);
    expect(answer.outcome == TACIT_DONE && tacit_state(west, sizeof west) == TACIT_READY,
           "a higher number does");

    step("East's Initialization arrives once more");
    answer = initialize(west, east_list, COUNT(east_list));
    print_answer(answer);
    print_session("west", west);
    expect(answer.gained == (right | multipoint), "all is back, and the new kind with it");

    if (unexpected == 0)
        puts("\nAll as expected.");
    else
        printf("\n%u NOT AS EXPECTED\n", unexpected);
    return unexpected == 0 ? 0 : 1;
}
