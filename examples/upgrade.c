/*
 * An upgrade in the field: a daemon finds in its store the records of kind 1 that version 3
 * left there, moves them forward, and does what each of them asks for. Then it sees what
 * brings back the labels of trees that were lost by it, and looks at the way back. Run it
 * with `make demo`; what it prints is kept in upgrade.txt.
 */
#include "tacit.h"

#include <stdio.h>
#include <string.h>

/* What the store has of a session: who the peer is, and a record of either kind. */
struct stored {
    const char *peer;
    size_t length;
    uint8_t octets[TACIT_RECORD_LENGTH];
};

/* Left by version 3. With the branch mLDP Tunneling was in use; of the quay's a bit has turned. */
static struct stored ring = {
    "ring", TACIT_KIND1_LENGTH,
    {20, 0, 1, 0, TACIT_READY, 0x07, 0x48, 0, 0, 0, 0, 0, 0, 0, 0, 0, 0, 0, 1, 0, 0, 0}};
static struct stored hill = {
    "hill", TACIT_KIND1_LENGTH,
    {20, 0, 1, 0, TACIT_HELD, 0x47, 0x40, 0, 0, 0, 0, 0, 0, 0, 7, 0, 0, 0, 1, 0, 0, 0}};
static struct stored branch = {
    "branch", TACIT_KIND1_LENGTH,
    {20, 0, 1, 0, TACIT_OPEN, 0x77, 0x05, 0, 0x05, 0, 0, 0, 0, 0, 0x29, 0, 0, 0, 3, 0, 0, 0}};
static struct stored quay = {
    "quay", TACIT_KIND1_LENGTH,
    {20, 0, 1, 0, TACIT_READY, 0x87, 0x40, 0, 0, 0, 0, 0, 0, 0, 0, 0, 0, 0, 1, 0, 0, 0}};

/* Left by version 4.0.0, which had the capabilities behind what it knew of a session. */
static struct stored island = {
    "island", TACIT_RECORD_LENGTH,
    {20, 0, 1, 0, TACIT_OPEN, 0x37, 0x05, 0, 0x05, 0, 0, 0, 0, 0, 0, 0, 0, 0, 1, 0, 0, 0, 3, 1}};

static const uint32_t tunnels =
    TACIT_APP_SET(TACIT_APP_LDPV4_TUNNELING) | TACIT_APP_SET(TACIT_APP_MLDP_TUNNELING);

static const uint32_t prefixes = TACIT_KIND_SET(TACIT_KIND_IPV4_PREFIX);
static const uint32_t p2mp = TACIT_KIND_SET(TACIT_KIND_P2MP);
static const uint32_t mldp = TACIT_KIND_SET(TACIT_KIND_P2MP) | TACIT_KIND_SET(TACIT_KIND_MP2MP_UP) |
                             TACIT_KIND_SET(TACIT_KIND_MP2MP_DOWN) |
                             TACIT_KIND_SET(TACIT_KIND_HSMP_DOWNSTREAM) |
                             TACIT_KIND_SET(TACIT_KIND_HSMP_UPSTREAM);

static unsigned unexpected;

static void expect(bool holds, const char *what)
{
    if (holds)
        return;
    unexpected++;
    printf("   NOT AS EXPECTED: %s\n", what);
}

/* ---- The log ---- */

static void log_octets(const char *name, const char *what, const uint8_t *octets, size_t length)
{
    printf("   %-8s %s\n   %-8s", name, what, "octets");
    for (size_t i = 0; i < length; i++)
        printf(" %02X", octets[i]);
    printf("\n");
}

static void log_answer(const char *name, const char *event, struct tacit_answer answer)
{
    char line[TACIT_ANSWER_TEXT_MOST];
    tacit_answer_text(line, sizeof line, answer);
    printf("   %-8s %s: %s\n", name, event, line);
}

/* The operator asks: may labels of this kind be sent, and if not, why? */
static uint8_t ask(const struct stored *stored, uint32_t kind)
{
    struct tacit_reason why = tacit_why_not(stored->octets, stored->length, kind);
    expect(why.refusal == 0, "the question is answered");
    if (why.reason == TACIT_PERMITTED)
        printf("   %-8s labels of %s may be sent\n", stored->peer, tacit_kind_text(kind));
    else
        printf("   %-8s labels of %s are kept back: %s\n", stored->peer, tacit_kind_text(kind),
               tacit_why_text(why.reason));
    return why.reason;
}

/* ---- The upgrade ---- */

static void create(uint8_t *record, uint32_t enabled, uint32_t first_number,
                   uint32_t capabilities)
{
    struct tacit_settings settings = {.initiating = true,
                                      .active = true,
                                      .uses_tac = true,
                                      .enabled = enabled,
                                      .first_number = first_number,
                                      .capabilities = capabilities};
    expect(tacit_create(record, TACIT_RECORD_LENGTH, settings) == 0, "a session is created");
}

static void store(struct stored *stored, const uint8_t *record)
{
    memcpy(stored->octets, record, TACIT_RECORD_LENGTH);
    stored->length = TACIT_RECORD_LENGTH;
    printf("   %-8s %s\n", stored->peer, tacit_state_text(tacit_state(record, stored->length)));
    log_octets(stored->peer, "stored", stored->octets, stored->length);
}

/*
 * Reads a record of kind 1, moves it, has what is lost withdrawn, and stores it last: until
 * then it is found as kind 1 again. Answers the kinds lost.
 */
static uint32_t upgrade(struct stored *stored)
{
    uint8_t record[TACIT_RECORD_LENGTH];
    log_octets(stored->peer, "found", stored->octets, stored->length);
    struct tacit_moved moved =
        tacit_forward(stored->octets, stored->length, record, sizeof record);
    struct tacit_answer answer = {.refusal = moved.refusal, .lost = moved.lost};
    log_answer(stored->peer, "moved forward", answer);
    if (moved.lost != 0)
        printf("   %-8s withdraw their labels\n", stored->peer);
    if (moved.refusal != TACIT_NOT_REFUSED) {
        printf("   %-8s damaged: close its connection, and create the session anew\n",
               stored->peer);
        create(record, TACIT_APP_SET(TACIT_APP_FEC129_PW), 1, 0);
    }
    store(stored, record);
    expect(tacit_sound(stored->octets, stored->length), "what is stored is sound");
    return moved.lost;
}

/* ---- The story ---- */

static void step(const char *title)
{
    static unsigned number;
    printf("\n%u. %s\n", ++number, title);
}

static void begin(void)
{
    puts("AN UPGRADE IN THE FIELD");
    puts("");
    puts("A daemon is upgraded from version 3 of the library. In its store are four sessions,");
    puts("each as a record of kind 1: 22 octets, without a place for capabilities. No call but");
    puts("the move forward takes them.");
    expect(tacit_hello(ring.octets, ring.length, 1).refusal == TACIT_REFUSED_NOT_SOUND,
           "a record of kind 1 is refused");
}

static void four_records(void)
{
    step("A session that is Ready, and one in Held");
    expect(upgrade(&ring) == 0, "the ring's loses nothing");
    expect(upgrade(&hill) == 0, "neither does the hill's");
    expect(tacit_retry_interval(hill.octets, hill.length).interval == 65535, "it is still held");

    step("A session that is Open, with mLDP Tunneling negotiated");
    expect(upgrade(&branch) == mldp, "the branch's loses mLDP's kinds");
    puts("   Version 3 asked for no capability, so labels of trees were sent to the branch. The");
    puts("   record says of neither end what it holds, and they may be sent no more:");
    expect(ask(&branch, TACIT_KIND_P2MP) == TACIT_CAPABILITY_NOT_OURS, "none is held here");
    expect(ask(&branch, TACIT_KIND_IPV4_PREFIX) == TACIT_PERMITTED, "prefixes may be sent");

    step("A record of which a bit has turned");
    expect(upgrade(&quay) == 0, "nothing is known to be lost");
    expect(tacit_state(quay.octets, quay.length) == TACIT_READY, "the new session is Ready");
}

static void announced_for_nothing(void)
{
    static const uint8_t area[] = {0x85, 0x08, 0, 1, 0x80};
    step("The branch announces P2MP");
    log_octets("branch", "sends a Capability message with", area, sizeof area);
    struct tacit_answer answer =
        tacit_capability(branch.octets, branch.length, area, sizeof area);
    log_answer("branch", "Capability message", answer);
    expect(answer.refusal == 0 && answer.gained == 0, "nothing is gained");
    expect(ask(&branch, TACIT_KIND_P2MP) == TACIT_CAPABILITY_NOT_OURS, "for ours is not held");
    puts("   What the peer holds is known again, by this or by its next Initialization. What we");
    puts("   hold is settled when a record is created, and this one was created without.");
}

/* The same applications, and the message numbers go on, in a record that has our capabilities. */
static void created_anew(void)
{
    /* The branch's Initialization: Dynamic, a TAC with 1 and 3, P2MP. */
    static const uint8_t area[] = {0x85, 0x06, 0, 1, 0x80, 0x85, 0x0F, 0, 9, 0x80, 0, 1, 0x80, 0,
                                   0,    3,    0x80, 0, 0x85, 0x08, 0, 1, 0x80};
    uint8_t record[TACIT_RECORD_LENGTH];
    step("The operator has the session opened anew, by a new record that holds P2MP and MP2MP");
    struct tacit_answer answer = tacit_closed(branch.octets, branch.length);
    log_answer("branch", "closed", answer);
    expect(answer.lost == prefixes, "what was left is lost with the connection");
    const uint32_t next = tacit_load(branch.octets, branch.length).session.next;
    create(record, tunnels, next, TACIT_CAPABILITY_P2MP | TACIT_CAPABILITY_MP2MP);
    log_octets("branch", "sends its Initialization with", area, sizeof area);
    answer = tacit_initialization(record, sizeof record, area, sizeof area);
    log_answer("branch", "Initialization", answer);
    expect(answer.gained == (prefixes | p2mp), "P2MP is permitted again");
    store(&branch, record);
    expect(ask(&branch, TACIT_KIND_P2MP) == TACIT_PERMITTED, "labels of the tree may be sent");
    expect(ask(&branch, TACIT_KIND_MP2MP_UP) == TACIT_CAPABILITY_NOT_THEIRS, "it lacks MP2MP");
}

/* Two octets of the head are all that differs. */
static void from_version_4(void)
{
    step("A record that version 4.0.0 left");
    log_octets("island", "found", island.octets, island.length);
    expect(!tacit_sound(island.octets, island.length), "it is not sound as it stands");
    island.octets[0] = 22;
    island.octets[2] = 2;
    expect(tacit_sound(island.octets, island.length), "with the head of kind 2 it is");
    log_octets("island", "taken over by octets 0 and 2", island.octets, island.length);
    expect(ask(&island, TACIT_KIND_P2MP) == TACIT_PERMITTED, "both ends hold P2MP");
    puts("   Its capabilities are where kind 2 has them: nothing is lost.");
}

static uint8_t go_back(const struct stored *stored)
{
    uint8_t old[TACIT_KIND1_LENGTH];
    uint8_t refusal = tacit_back(stored->octets, stored->length, old, sizeof old);
    if (refusal == TACIT_NOT_REFUSED)
        log_octets(stored->peer, "moved back", old, sizeof old);
    else
        printf("   %-8s moved back: refused, number %u: %s\n", stored->peer, refusal,
               tacit_refusal_text(refusal));
    return refusal;
}

static void the_way_back(void)
{
    step("The way back, should version 3 have to return");
    expect(go_back(&ring) == TACIT_NOT_REFUSED, "the ring's goes back");
    expect(go_back(&hill) == TACIT_NOT_REFUSED, "so does the hill's");
    expect(go_back(&branch) == TACIT_REFUSED_CAPABILITIES, "the branch's does not");
    log_answer("branch", "closed", tacit_closed(branch.octets, branch.length));
    expect(go_back(&branch) == TACIT_REFUSED_CAPABILITIES, "nor does it when it is closed");
    puts("   What the peer held went with the connection. What is ours stays in the record:");
    puts("   under version 3 this session is to be created anew.");
}

int main(void)
{
    begin();
    four_records();
    announced_for_nothing();
    created_anew();
    from_version_4();
    the_way_back();
    if (unexpected == 0)
        puts("\nAll as expected.");
    else
        printf("\n%u NOT AS EXPECTED\n", unexpected);
    return unexpected == 0 ? 0 : 1;
}
