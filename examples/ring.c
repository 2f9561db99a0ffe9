/*
 * A night on the ring: a responder that lets no more than two sessions in for
 * LDPv4 Remote LFA. Each event gives a line as an operator would find it in the
 * log, and then how many sessions use the two applications. Before a batch of
 * labels it asks the totals that it keeps with its row how many sessions may get
 * them. Run it with `make demo`; what it prints is kept in ring.txt.
 */
#include "tacit.h"

#include <stdio.h>
#include <string.h>

#define COUNT(list) (sizeof(list) / sizeof *(list))

/* The row: one session for each peer. */
enum { NORTH, EAST, SOUTH, HUB, WEST, SESSIONS };
static const char *const peer[SESSIONS] = {"north", "east", "south", "hub", "west"};
static struct tacit_session row[SESSIONS];
static struct tacit_totals totals; /* how many of them permit each kind: 0 while all are fresh */
static struct tacit_limits limits;

/* What a peer lists. */
static const uint8_t reroute[] = {TACIT_APP_LDPV4_REMOTE_LFA};
static const uint8_t pseudowires[] = {TACIT_APP_FEC129_PW};
static const uint8_t both[] = {TACIT_APP_LDPV4_REMOTE_LFA, TACIT_APP_FEC129_PW};

static unsigned unexpected;

static void expect(bool holds, const char *what)
{
    if (holds)
        return;
    unexpected++;
    printf("   NOT AS EXPECTED: %s\n", what);
}

/* ---- The log ---- */

static void print_kinds(const char *title, uint32_t set)
{
    const char *before = title;
    for (uint32_t kind = 0; kind <= 9; kind++) {
        if ((set & TACIT_KIND_SET(kind)) == 0)
            continue;
        printf("%s%s", before, tacit_kind_text(kind));
        before = ", ";
    }
}

/* The rest of an event's line: what it came to, and where the session is now. */
static void log_answer(size_t at, struct tacit_answer answer)
{
    if (answer.refusal != 0)
        printf(": refused, number %u: %s", answer.refusal, tacit_refusal_text(answer.refusal));
    else
        printf(": %s", tacit_outcome_text(answer.outcome));
    printf("; %s", tacit_state_text(row[at].state));
    print_kinds("; lost ", answer.lost);
    print_kinds("; gained ", answer.gained);
    printf("\n");
}

static unsigned used_by(uint32_t ta_id)
{
    return tacit_row_count(row, SESSIONS, ta_id).count;
}

static void log_counts(void)
{
    printf("   %-9s", "in use");
    for (size_t i = 0; i < COUNT(both); i++) {
        unsigned count = used_by(both[i]), limit = limits.of[both[i] - 1];
        printf("%s%s %u of %u%s", i == 0 ? "" : ", ", tacit_application_text(both[i]), count, limit,
               count > limit ? " (past its limit)" : "");
    }
    printf("\n");
}

/* ---- Events ---- */

/* The parameters of an Initialization: one TAC with this list. */
static size_t initialization_area(uint8_t *area, const uint8_t *list, size_t count)
{
    const uint8_t head[] = {0x85, 0x0F, 0x00, (uint8_t)(1 + 4 * count), 0x80};
    memcpy(area, head, sizeof head);
    for (size_t i = 0; i < count; i++) {
        const uint8_t element[] = {0x00, list[i], 0x80, 0x00};
        memcpy(area + sizeof head + 4 * i, element, sizeof element);
    }
    return sizeof head + 4 * count;
}

static struct tacit_answer initialize(size_t at, const uint8_t *list, size_t count)
{
    uint8_t area[64];
    size_t length = initialization_area(area, list, count);
    printf("   %-9sInitialization, lists", peer[at]);
    for (size_t i = 0; i < count; i++)
        printf("%s %s", i == 0 ? "" : ",", tacit_application_text(list[i]));
    struct tacit_answer answer =
        tacit_row_initialization(row, SESSIONS, at, limits, &totals, area, length);
    log_answer(at, answer);
    log_counts();
    return answer;
}

static struct tacit_answer close_connection(size_t at)
{
    printf("   %-9sconnection closed", peer[at]);
    struct tacit_answer answer = tacit_row_closed(row, SESSIONS, at, &totals);
    log_answer(at, answer);
    log_counts();
    return answer;
}

/* ---- Batches of labels ---- */

/* As it is asked without totals: of every session of the row. */
static unsigned by_a_walk(uint32_t kind)
{
    unsigned count = 0;
    for (size_t at = 0; at < SESSIONS; at++)
        if ((tacit_session_kinds(row[at]).kinds & TACIT_KIND_SET(kind)) != 0)
            count++;
    return count;
}

/* Before a batch: how many sessions may get labels of this kind. */
static unsigned batch(uint32_t kind)
{
    struct tacit_total may = tacit_kind_total(totals, kind);
    unsigned walk = by_a_walk(kind);
    printf("   %-9s%s: %u of %u sessions by the totals, %u by a walk\n", "batch",
           tacit_kind_text(kind), may.total, SESSIONS, walk);
    expect(may.refusal == 0 && may.total == walk, "the totals say what a walk says");
    return may.total;
}

/* ---- Restart ---- */

static void store(uint8_t records[SESSIONS][TACIT_RECORD_LENGTH])
{
    for (size_t at = 0; at < SESSIONS; at++)
        expect(tacit_store(row[at], records[at], TACIT_RECORD_LENGTH) == 0, "a session is stored");
}

/* Sessions may have been Open when they were stored, so the totals are counted anew. */
static void load(uint8_t records[SESSIONS][TACIT_RECORD_LENGTH])
{
    for (size_t at = 0; at < SESSIONS; at++) {
        struct tacit_loaded loaded = tacit_load(records[at], TACIT_RECORD_LENGTH);
        expect(loaded.refusal == 0, "a session is loaded");
        row[at] = loaded.session;
    }
    struct tacit_row_totals counted = tacit_recount(row, SESSIONS);
    expect(counted.refusal == 0, "the totals are counted");
    totals = counted.totals;
}

/* ---- The story ---- */

static void step(const char *title)
{
    static unsigned number;
    printf("\n%u. %s\n", ++number, title);
}

/* The responder's end of each session: it responds, is passive and uses TAC. */
static void begin(void)
{
    puts("A NIGHT ON THE RING");
    puts("");
    puts("A responder with a session for each of five peers. It supports LDPv4 Remote LFA");
    puts("and FEC 129 PW, and its operator has set a limit of two for LDPv4 Remote LFA, so");
    puts("that a repair of the ring does not bring it a session from every box.");
    uint8_t record[TACIT_RECORD_LENGTH];
    uint32_t enabled =
        TACIT_APP_SET(TACIT_APP_LDPV4_REMOTE_LFA) | TACIT_APP_SET(TACIT_APP_FEC129_PW);
    struct tacit_settings settings = {.uses_tac = true, .enabled = enabled, .first_number = 1};
    expect(tacit_create(record, sizeof record, settings) == 0, "a session is created");
    for (size_t at = 0; at < SESSIONS; at++)
        row[at] = tacit_load(record, sizeof record).session;
    struct tacit_limited set = tacit_set_limit(tacit_no_limits(), TACIT_APP_LDPV4_REMOTE_LFA, 2);
    expect(set.refusal == 0, "the limit is set");
    limits = set.limits;
}

static void two_come_up(void)
{
    step("Two remote LFA sessions come up");
    expect(initialize(NORTH, reroute, COUNT(reroute)).outcome == TACIT_DONE, "north is let in");
    expect(initialize(EAST, reroute, COUNT(reroute)).outcome == TACIT_DONE, "east is let in");
    expect(used_by(TACIT_APP_LDPV4_REMOTE_LFA) == 2, "the limit is reached");
}

static void a_third_is_turned_away(void)
{
    step("A third is turned away");
    struct tacit_answer answer = initialize(SOUTH, reroute, COUNT(reroute));
    puts("   The daemon sends the Notification and closes the connection, as after a");
    puts("   mismatch. A passive end is Ready again and waits for the peer.");
    expect(answer.refusal == 0 && answer.outcome == TACIT_AT_LIMIT, "south is turned away");
    expect(answer.gained == 0 && row[SOUTH].state == TACIT_READY, "south has opened nothing");
    expect(tacit_session_retry(row[SOUTH]).interval == 0, "a passive end has nothing to wait for");
}

static void a_pseudowire_comes_after_it(void)
{
    step("A pseudowire session comes after it");
    struct tacit_answer answer = initialize(HUB, pseudowires, COUNT(pseudowires));
    puts("   The limit of one application keeps nobody out who comes for another.");
    expect(answer.outcome == TACIT_DONE, "the hub is let in");
    expect(answer.gained == TACIT_KIND_SET(TACIT_KIND_GENERALIZED_PWID), "with its pseudowires");
}

static void batches_are_due(void)
{
    step("Batches of labels are due");
    unsigned prefixes = batch(TACIT_KIND_IPV4_PREFIX);
    unsigned wires = batch(TACIT_KIND_GENERALIZED_PWID);
    unsigned trees = batch(TACIT_KIND_P2MP);
    puts("   The label process asks before each batch, and makes none that nobody may get. The");
    puts("   totals go with the row, and every event has brought them up to date.");
    expect(prefixes == 2 && wires == 1 && trees == 0, "each kind has its total");
}

static void one_leaves_and_another_comes(void)
{
    step("One leaves, and the one that was turned away tries again");
    expect(close_connection(NORTH).refusal == 0, "north has left");
    expect(initialize(SOUTH, reroute, COUNT(reroute)).outcome == TACIT_DONE, "south is let in");
    expect(used_by(TACIT_APP_LDPV4_REMOTE_LFA) == 2, "the limit is reached again");
}

/* RFC 8223, section 5.3: what both ends list is negotiated. */
static void a_count_passes_its_limit(void)
{
    step("West lists both while LDPv4 Remote LFA is at its limit");
    struct tacit_answer answer = initialize(WEST, both, COUNT(both));
    puts("   FEC 129 PW has room, so the session opens; once open it has all that is common");
    puts("   to both ends (RFC 8223, section 5.3), and a count may pass its limit.");
    expect(answer.outcome == TACIT_DONE && row[WEST].state == TACIT_OPEN, "west is let in");
    expect(used_by(TACIT_APP_LDPV4_REMOTE_LFA) == 3, "three use LDPv4 Remote LFA");
    expect(used_by(TACIT_APP_FEC129_PW) == 2, "two use FEC 129 PW");
    expect(batch(TACIT_KIND_IPV4_PREFIX) == 3, "three may get IPv4 prefixes");
    expect(batch(TACIT_KIND_GENERALIZED_PWID) == 2, "two may get pseudowires");
}

static void north_comes_back(void)
{
    step("North comes back for remote LFA alone");
    expect(initialize(NORTH, reroute, COUNT(reroute)).outcome == TACIT_AT_LIMIT,
           "north is turned away");
}

static void the_daemon_restarts(void)
{
    uint8_t records[SESSIONS][TACIT_RECORD_LENGTH];
    const struct tacit_totals before = totals;
    step("The daemon restarts");
    store(records);
    memset(row, 0, sizeof row);
    memset(&totals, 0, sizeof totals);
    load(records);
    puts("   The records were kept, and the totals not: they are counted anew from the row.");
    expect(memcmp(&totals, &before, sizeof totals) == 0, "the totals are as before");
    batch(TACIT_KIND_IPV4_PREFIX);
    batch(TACIT_KIND_GENERALIZED_PWID);
    puts("   The connections are gone, so each session that was Open is closed.");
    for (size_t at = 0; at < SESSIONS; at++)
        if (row[at].state == TACIT_OPEN)
            expect(close_connection(at).refusal == 0, "it is closed");
    expect(batch(TACIT_KIND_IPV4_PREFIX) == 0, "nobody may get IPv4 prefixes");
    expect(batch(TACIT_KIND_GENERALIZED_PWID) == 0, "nobody may get pseudowires");
}

int main(void)
{
    begin();
    two_come_up();
    a_third_is_turned_away();
    a_pseudowire_comes_after_it();
    batches_are_due();
    one_leaves_and_another_comes();
    a_count_passes_its_limit();
    north_comes_back();
    the_daemon_restarts();
    if (unexpected == 0)
        puts("\nAll as expected.");
    else
        printf("\n%u NOT AS EXPECTED\n", unexpected);
    return unexpected == 0 ? 0 : 1;
}
