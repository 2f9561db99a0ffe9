/*
 * bench.c - makes one call again and again, of the library or of what it is measured by
 *
 *   bench rows                  the rows: their names and how often to call
 *   bench check                 all give the same on every row
 *   bench count WHO ROW CALLS   makes the calls, for someone else to count
 *   bench time ROW              nanoseconds for one call, of each WHO
 *
 * WHO is tacit, the library; plain, the same in C (plain.c); second, the second
 * program; or nothing: calls with the same parameters that do nothing, for what the
 * loop itself takes. Before each call the record is put back as it was, and the
 * session of the row that events are for; no other buffer is touched. A move reads the
 * record of one kind, which is there from the start, and writes that of the other. A
 * question about a session by itself is asked as a walk does: a call for each session of
 * the row.
 */
#define _DEFAULT_SOURCE
#include "calls.h"

#include <time.h>

DECLARE_CALLS(plain)
DECLARE_CALLS(second)
CALLS_THAT_DO_NOTHING(nothing)

struct who {
    const char *name;
    struct calls calls;
};

enum { NOTHING, TACIT, PLAIN, SECOND, WHOS };

static const struct who everyone[WHOS] = {[NOTHING] = {"nothing", CALLS_OF(nothing)},
                                          [TACIT] = {"tacit", CALLS_OF(tacit)},
                                          [PLAIN] = {"plain", CALLS_OF(plain)},
                                          [SECOND] = {"second", CALLS_OF(second)}};

/* ---------------------------------------------------------------------- */
/* What is handed in                                                       */
/* ---------------------------------------------------------------------- */

struct area {
    size_t length;
    uint8_t octets[TACIT_AREA_MOST];
};

static struct area frr = {15, {0x85, 0x06, 0, 1, 0x80, 0x85, 0x0B, 0, 1, 0x80, 0x86, 0x03, 0, 1, 0x80}};

/* Dynamic, P2MP, MP2MP, Typed Wildcard, SAC of App 3, TAC of 4 and 7: all but one count. */
static struct area six = {39, {0x85, 0x06, 0, 1, 0x80, 0x85, 0x08, 0, 1, 0x80, 0x85, 0x09, 0,
                               1, 0x80, 0x85, 0x0B, 0, 1, 0x80, 0x85, 0x0D, 0, 2, 0x80, 0xB0,
                               0x85, 0x0F, 0, 9, 0x80, 0, 4, 0x80, 0, 0, 7, 0x80, 0}};

/* FRR's parameters, then P2MP, MP2MP and HSMP: with these all ten kinds are gained. */
static struct area ten = {30, {0x85, 0x06, 0, 1, 0x80, 0x85, 0x0B, 0, 1, 0x80,
                               0x86, 0x03, 0, 1, 0x80, 0x85, 0x08, 0, 1, 0x80,
                               0x85, 0x09, 0, 1, 0x80, 0x89, 0x02, 0, 1, 0x80}};

/* P2MP, MP2MP and HSMP with S = 0: kinds 2 to 6 are lost. */
static struct area no_mldp = {15, {0x85, 0x08, 0, 1, 0, 0x85, 0x09, 0, 1, 0, 0x89, 0x02, 0, 1, 0}};

/*
 * A TAC with S = 0, a SAC that disables App 1, and HSMP, which the six TLVs lack: kind 0 is
 * lost, 1 to 6 and 9 are gained.
 */
static struct area withdrawn = {16, {0x85, 0x0F, 0, 1, 0, 0x85, 0x0D, 0, 2, 0x80, 0x90,
                                     0x89, 0x02, 0, 1, 0x80}};

/* Dynamic, SAC of App 3, TAC of 3, 4 and 7, and no capability. */
static struct area trees = {28, {0x85, 0x06, 0, 1, 0x80, 0x85, 0x0D, 0, 2, 0x80, 0xB0, 0x85, 0x0F,
                                 0, 13, 0x80, 0, 3, 0x80, 0, 0, 4, 0x80, 0, 0, 7, 0x80, 0}};

/* A TAC alone: by how many elements it has, and by what they name. */
static struct area elements_250, elements_500, elements_1000, unknown_1000, repeated_1000;

static struct area thousand_tlvs, none;

static uint8_t ready[TACIT_RECORD_LENGTH], opened[TACIT_RECORD_LENGTH], all[TACIT_RECORD_LENGTH];
static uint8_t bare[TACIT_RECORD_LENGTH];
static uint8_t record[TACIT_RECORD_LENGTH], room[TACIT_MESSAGE_LENGTH];
static uint8_t kind1[TACIT_KIND1_LENGTH], kind2[TACIT_RECORD_LENGTH]; /* of a move */

/* Of the row a part is lent. 4 may be used by two of its sessions, 7 by all. */
static struct tacit_session sessions[TACIT_ROW_MOST];
static struct tacit_limits limits;

static const struct tacit_settings settings = {.initiating = true,
                                               .active = true,
                                               .uses_tac = true,
                                               .enabled = 0x48,
                                               .first_number = 1,
                                               .capabilities = TACIT_ALL_CAPABILITIES};

/* A TAC of so many elements, whose TA-Ids are those from `first` to `last`, again and again. */
static void prepare_tac(struct area *area, unsigned elements, unsigned first, unsigned last)
{
    unsigned length = 1 + 4 * elements;
    uint8_t *next = area->octets;
    memcpy(next, (const uint8_t[]){0x85, 0x0F, (uint8_t)(length >> 8), (uint8_t)length, 0x80}, 5);
    next += 5;
    for (unsigned i = 0; i < elements; i++, next += 4) {
        unsigned id = first + i % (last - first + 1);
        memcpy(next, (const uint8_t[]){(uint8_t)(id >> 8), (uint8_t)id, 0x80, 0}, 4);
    }
    area->length = (size_t)(next - area->octets);
}

static void prepare_all(void)
{
    prepare_tac(&elements_250, 250, 1, 250);
    prepare_tac(&elements_500, 500, 1, 500);
    prepare_tac(&elements_1000, 1000, 1, 1000);
    prepare_tac(&unknown_1000, 1000, 14, 1013);
    prepare_tac(&repeated_1000, 1000, 1, 13);
    /* TLVs of type 0x0600 with U = 1 and no value. */
    uint8_t *next = thousand_tlvs.octets;
    for (unsigned i = 0; i < 1000; i++, next += 4)
        memcpy(next, (const uint8_t[]){0x86, 0, 0, 0}, 4);
    thousand_tlvs.length = (size_t)(next - thousand_tlvs.octets);
    /*
     * Sessions that enable 4 and 7 and hold all three capabilities: one opened by the six
     * TLVs, one that permits all ten kinds.
     */
    tacit_create(ready, sizeof ready, settings);
    memcpy(opened, ready, sizeof opened);
    tacit_initialization(opened, sizeof opened, six.octets, six.length);
    memcpy(all, ready, sizeof all);
    tacit_initialization(all, sizeof all, ten.octets, ten.length);
    /* One that enables 3 too, uses all three, and holds no capability. */
    struct tacit_settings without = settings;
    without.enabled |= TACIT_APP_SET(TACIT_APP_MLDP_TUNNELING);
    without.capabilities = 0;
    tacit_create(bare, sizeof bare, without);
    tacit_initialization(bare, sizeof bare, trees.octets, trees.length);
    limits = tacit_set_limit(tacit_no_limits(), 4, 2).limits;
}

/* ---------------------------------------------------------------------- */
/* Rows                                                                    */
/* ---------------------------------------------------------------------- */

struct row {
    const char *name;
    const char *text;
    unsigned long times; /* calls that make a count */
    const uint8_t *from; /* the record before each call, and the row's last session */
    const struct area *area;
    struct given given; /* all but octets, sessions, limits, totals and settings */
};

/* A row of so many sessions, and the call for the last of them. */
#define IN_ROW(count) .lent[ROW].length = (count) * SESSION_OCTETS, .at = (count) - 1

/* Wishes for no bindings of prefixes. */
enum { PREFIXES = TACIT_SAC_SET(TACIT_SAC_IPV4_PREFIX) | TACIT_SAC_SET(TACIT_SAC_IPV6_PREFIX) };

static const struct row rows[] = {
    {"read-frr", "read, FRR's parameters (15 octets)", 10000, ready, &frr, {.call = READ}},
    {"read-six", "read, six capability TLVs", 10000, ready, &six, {.call = READ}},
    {"read-elements", "read, TAC of 1,000 elements", 10000, ready, &elements_1000,
     {.call = READ}},
    {"read-tlvs", "read, 1,000 empty unknown TLVs", 500, ready, &thousand_tlvs, {.call = READ}},
    {"init-frr", "Initialization, FRR's parameters (15 octets)", 10000, ready, &frr,
     {.call = INITIALIZATION}},
    {"init-six", "Initialization, six capability TLVs", 10000, ready, &six,
     {.call = INITIALIZATION}},
    {"init-250", "Initialization, TAC of 250 elements", 500, ready, &elements_250,
     {.call = INITIALIZATION}},
    {"init-500", "Initialization, TAC of 500 elements", 500, ready, &elements_500,
     {.call = INITIALIZATION}},
    {"init-1000", "Initialization, TAC of 1,000 elements", 500, ready, &elements_1000,
     {.call = INITIALIZATION}},
    {"init-unknown", "Initialization, TAC of 1,000 unknown TA-Ids", 500, ready,
     &unknown_1000, {.call = INITIALIZATION}},
    {"init-repeated", "Initialization, TAC of 1,000 known TA-Ids, repeated", 500, ready,
     &repeated_1000, {.call = INITIALIZATION}},
    {"init-tlvs", "Initialization, 1,000 empty unknown TLVs", 500, ready, &thousand_tlvs,
     {.call = INITIALIZATION}},
    {"cap-frr", "Capability, FRR's parameters (15 octets)", 10000, opened, &frr,
     {.call = CAPABILITY}},
    {"cap-six", "Capability, six capability TLVs", 10000, opened, &six, {.call = CAPABILITY}},
    {"cap-mldp", "Capability, P2MP, MP2MP and HSMP withdrawn", 10000, all, &no_mldp,
     {.call = CAPABILITY}},
    {"cap-250", "Capability, TAC of 250 elements", 500, opened, &elements_250,
     {.call = CAPABILITY}},
    {"cap-500", "Capability, TAC of 500 elements", 500, opened, &elements_500,
     {.call = CAPABILITY}},
    {"cap-1000", "Capability, TAC of 1,000 elements", 500, opened, &elements_1000,
     {.call = CAPABILITY}},
    {"cap-unknown", "Capability, TAC of 1,000 unknown TA-Ids", 500, opened,
     &unknown_1000, {.call = CAPABILITY}},
    {"cap-repeated", "Capability, TAC of 1,000 known TA-Ids, repeated", 500, opened,
     &repeated_1000, {.call = CAPABILITY}},
    {"cap-tlvs", "Capability, 1,000 empty unknown TLVs", 500, opened, &thousand_tlvs,
     {.call = CAPABILITY}},
    {"change", "local change, 17 octets written", 10000, opened, &none,
     {.call = LOCAL_CHANGE, .ta_id = 1, .on = true}},
    {"hello", "Hello, recorded", 10000, opened, &none, {.call = HELLO, .number = 5}},
    {"mismatch", "mismatch notification", 10000, opened, &none, {.call = MISMATCH}},
    {"closed", "connection closed", 10000, opened, &none, {.call = CLOSED}},
    {"create", "creation", 10000, ready, &none, {.call = CREATE}},
    {"permitted", "permitted, one kind", 10000, opened, &none, {.call = PERMITTED}},
    {"kinds", "permitted, all kinds", 10000, opened, &none, {.call = PERMITTED_KINDS}},
    {"why-not", "why not, a permitted kind", 10000, opened, &none,
     {.call = WHY_NOT, .kind = TACIT_KIND_GENERALIZED_PWID}},
    {"why-mldp", "why not, a permitted kind that needs a capability", 10000, all, &none,
     {.call = WHY_NOT, .kind = TACIT_KIND_HSMP_UPSTREAM}},
    {"wish", "wish, 14 octets written", 10000, opened, &none,
     {.call = WISH, .app = TACIT_SAC_IPV4_PREFIX, .disable = true}},
    {"wish-sac-2", "SAC for an Initialization, two wishes", 10000, ready, &none,
     {.call = WISH_SAC, .wishes = PREFIXES}},
    {"wish-sac-4", "SAC for an Initialization, four wishes", 10000, ready, &none,
     {.call = WISH_SAC, .wishes = TACIT_ALL_SAC}},
    {"wanted", "wanted, one kind", 10000, ready, &none,
     {.call = WANTED, .wishes = PREFIXES, .kind = TACIT_KIND_GENERALIZED_PWID}},
    {"retry", "retry interval", 10000, opened, &none, {.call = RETRY_INTERVAL}},
    {"sound", "sound", 10000, opened, &none, {.call = SOUND}},
    {"forward", "move forward, an Open session that loses five kinds", 10000, bare, &none,
     {.call = FORWARD}},
    {"back", "move back, an Open session", 10000, bare, &none, {.call = BACK}},
    {"load", "load", 10000, opened, &none, {.call = LOAD}},
    {"store", "store", 10000, opened, &none, {.call = STORE}},
    {"row-init-1", "Initialization in a row of 1, six capability TLVs", 1000, ready, &six,
     {.call = ROW_EVENT, IN_ROW(1), .event = {TACIT_EVENT_INITIALIZATION, 0, 0, 0}}},
    {"row-init-16", "Initialization in a row of 16, six capability TLVs", 1000, ready, &six,
     {.call = ROW_EVENT, IN_ROW(16), .event = {TACIT_EVENT_INITIALIZATION, 0, 0, 0}}},
    {"row-init-64", "Initialization in a row of 64, six capability TLVs", 1000, ready, &six,
     {.call = ROW_EVENT, IN_ROW(64), .event = {TACIT_EVENT_INITIALIZATION, 0, 0, 0}}},
    {"row-init-all-64", "Initialization in a row of 64, all ten kinds gained", 1000, ready, &ten,
     {.call = ROW_EVENT, IN_ROW(64), .event = {TACIT_EVENT_INITIALIZATION, 0, 0, 0}}},
    {"row-cap-64", "Capability in a row of 64, one kind lost and seven gained", 1000, opened,
     &withdrawn, {.call = ROW_EVENT, IN_ROW(64), .event = {TACIT_EVENT_CAPABILITY, 0, 0, 0}}},
    {"row-hello-1", "Hello in a row of 1, recorded", 1000, ready, &none,
     {.call = ROW_EVENT, IN_ROW(1), .event = {TACIT_EVENT_HELLO, 0, 0, 5}}},
    {"row-hello-16", "Hello in a row of 16, recorded", 1000, ready, &none,
     {.call = ROW_EVENT, IN_ROW(16), .event = {TACIT_EVENT_HELLO, 0, 0, 5}}},
    {"row-hello-64", "Hello in a row of 64, recorded", 1000, ready, &none,
     {.call = ROW_EVENT, IN_ROW(64), .event = {TACIT_EVENT_HELLO, 0, 0, 5}}},
    {"row-closed-1", "connection closed in a row of 1", 1000, opened, &none,
     {.call = ROW_EVENT, IN_ROW(1), .event = {TACIT_EVENT_CLOSED, 0, 0, 0}}},
    {"row-closed-16", "connection closed in a row of 16", 1000, opened, &none,
     {.call = ROW_EVENT, IN_ROW(16), .event = {TACIT_EVENT_CLOSED, 0, 0, 0}}},
    {"row-closed-64", "connection closed in a row of 64", 1000, opened, &none,
     {.call = ROW_EVENT, IN_ROW(64), .event = {TACIT_EVENT_CLOSED, 0, 0, 0}}},
    {"row-count-64", "count in a row of 64", 1000, opened, &none,
     {.call = ROW_COUNT, IN_ROW(64), .ta_id = 4}},
    {"kind-total", "how many may get a kind, from the totals", 10000, opened, &none,
     {.call = KIND_TOTAL, IN_ROW(64), .kind = TACIT_KIND_GENERALIZED_PWID}},
    {"kind-walk-64", "how many may get a kind, by a walk over a row of 64", 500, opened, &none,
     {.call = SESSION_KINDS, IN_ROW(64)}},
    {"recount-64", "recount in a row of 64", 1000, opened, &none,
     {.call = RECOUNT, IN_ROW(64)}},
};

enum { ROWS = sizeof rows / sizeof *rows };

static uint8_t said[SAID]; /* by the last call */

/* The record that a move is to read; its room is empty. */
static void prepare_move(const struct row *row)
{
    memset(kind1, 0, sizeof kind1);
    memset(kind2, 0, sizeof kind2);
    if (row->given.call == FORWARD)
        tacit_back(row->from, sizeof record, kind1, sizeof kind1);
    if (row->given.call == BACK)
        memcpy(kind2, row->from, sizeof kind2);
}

/*
 * Makes the calls. Of the row all sessions but the last are open; an event changes no
 * other than that one, so that it alone is put back. The totals are those of the row.
 */
static void run(const struct who *who, const struct row *row, unsigned long times)
{
    void *const at[BUFFERS] = {
        [RECORD] = record, [AREA] = (void *)row->area->octets, [ROOM] = room, [ROW] = sessions,
        [KIND1] = kind1, [KIND2] = kind2};
    struct given given = row->given;
    given.limits = limits;
    given.settings = settings;
    given.session = tacit_load(row->from, sizeof record).session;
    given.lent[RECORD].length = sizeof record;
    given.lent[AREA].length = row->area->length;
    given.lent[ROOM].length = sizeof room;
    given.lent[KIND1].length = sizeof kind1;
    given.lent[KIND2].length = sizeof kind2;
    prepare_move(row);
    for (size_t i = 0; i < given.at; i++)
        sessions[i] = tacit_load(opened, sizeof opened).session;
    sessions[given.at] = given.session;
    given.totals = tacit_recount(sessions, given.at + 1).totals;
    const size_t first = given.call == SESSION_KINDS ? 0 : given.at; /* by a walk, or at once */
    while (times-- > 0) {
        memcpy(record, row->from, sizeof record);
        sessions[given.at] = given.session;
        for (size_t i = first; i <= given.at; i++) {
            given.session = sessions[i];
            make_call(&who->calls, &given, at, said);
        }
    }
}

/* ---------------------------------------------------------------------- */
/* Ways to run                                                             */
/* ---------------------------------------------------------------------- */

/* All that a call leaves and says. */
struct left {
    uint8_t said[SAID], record[TACIT_RECORD_LENGTH], room[TACIT_MESSAGE_LENGTH];
    uint8_t kind1[TACIT_KIND1_LENGTH], kind2[TACIT_RECORD_LENGTH];
    uint8_t row[TACIT_ROW_MOST * SESSION_OCTETS];
};

static void run_once(const struct who *who, const struct row *row, struct left *left)
{
    memset(room, 0, sizeof room);
    run(who, row, 1);
    memcpy(left->said, said, sizeof said);
    memcpy(left->record, record, sizeof record);
    memcpy(left->room, room, sizeof room);
    memcpy(left->kind1, kind1, sizeof kind1);
    memcpy(left->kind2, kind2, sizeof kind2);
    for (size_t i = 0; i < TACIT_ROW_MOST; i++)
        put_session(left->row + SESSION_OCTETS * i, &sessions[i]);
}

static int check(void)
{
    int wrong = 0;
    for (int i = 0; i < ROWS; i++) {
        struct left ours, theirs;
        run_once(&everyone[TACIT], &rows[i], &ours);
        bool good = rows[i].given.call == SOUND || ours.said[0] == TACIT_NOT_REFUSED;
        for (int w = PLAIN; w < WHOS; w++) {
            run_once(&everyone[w], &rows[i], &theirs);
            good = good && memcmp(&ours, &theirs, sizeof ours) == 0;
        }
        if (!good) {
            fprintf(stderr, "bench: refused, or not the same: %s\n", rows[i].text);
            wrong = 1;
        }
    }
    return wrong;
}

static double now(void)
{
    struct timespec time;
    clock_gettime(CLOCK_MONOTONIC, &time);
    return (double)time.tv_sec * 1e9 + (double)time.tv_nsec;
}

/* For each the shortest of many short runs, which take turns. */
static void print_times(const struct row *row)
{
    enum { RUNS = 1000 };
    const unsigned long times = row->times / 5;
    double best[WHOS] = {0};
    for (int i = 0; i < RUNS; i++)
        for (int w = 0; w < WHOS; w++) {
            double start = now();
            run(&everyone[w], row, times);
            double each = (now() - start) / (double)times;
            if (i == 0 || each < best[w])
                best[w] = each;
        }
    for (int w = 0; w < WHOS; w++)
        printf("%s %.2f\n", everyone[w].name, best[w]);
}

static const struct row *row_named(const char *name)
{
    for (int i = 0; i < ROWS; i++)
        if (strcmp(name, rows[i].name) == 0)
            return &rows[i];
    return NULL;
}

static const struct who *who_named(const char *name)
{
    for (int w = 0; w < WHOS; w++)
        if (strcmp(name, everyone[w].name) == 0)
            return &everyone[w];
    return NULL;
}

int main(int count, char **words)
{
    prepare_all();
    if (count == 2 && strcmp(words[1], "rows") == 0) {
        for (int i = 0; i < ROWS; i++)
            printf("%s %lu %s\n", rows[i].name, rows[i].times, rows[i].text);
        return 0;
    }
    if (count == 2 && strcmp(words[1], "check") == 0)
        return check();
    if (count == 5 && strcmp(words[1], "count") == 0 && who_named(words[2]) && row_named(words[3])) {
        run(who_named(words[2]), row_named(words[3]), strtoul(words[4], NULL, 10));
        return 0;
    }
    if (count == 3 && strcmp(words[1], "time") == 0 && row_named(words[2])) {
        print_times(row_named(words[2]));
        return 0;
    }
    fprintf(stderr, "usage: bench rows | check | count WHO ROW CALLS | time ROW\n");
    return 2;
}
