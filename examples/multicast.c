/*
 * Labels for a tree: mLDP Tunneling is negotiated with a branch router that cannot handle
 * P2MP trees, and learns it at night. Our end is shown with its record; of the branch, a
 * box of another make, only its messages are. Run it with `make demo`; what it prints is
 * kept in multicast.txt.
 */
#include "tacit.h"

#include <stdio.h>
#include <string.h>

#define COUNT(list) (sizeof(list) / sizeof *(list))

static uint8_t root[TACIT_RECORD_LENGTH];    /* our session with the branch */
static uint8_t to_hill[TACIT_RECORD_LENGTH]; /* and with a router on the hill */

/* What both the root and the branch support, and what the root can handle. */
static const uint32_t tunnels =
    TACIT_APP_SET(TACIT_APP_LDPV4_TUNNELING) | TACIT_APP_SET(TACIT_APP_MLDP_TUNNELING);
static const uint32_t handled = TACIT_CAPABILITY_P2MP | TACIT_CAPABILITY_MP2MP;

static const uint32_t prefixes = TACIT_KIND_SET(TACIT_KIND_IPV4_PREFIX);
static const uint32_t p2mp = TACIT_KIND_SET(TACIT_KIND_P2MP);
static const uint32_t mp2mp =
    TACIT_KIND_SET(TACIT_KIND_MP2MP_UP) | TACIT_KIND_SET(TACIT_KIND_MP2MP_DOWN);

static unsigned unexpected;

static void expect(bool holds, const char *what)
{
    if (holds)
        return;
    unexpected++;
    printf("   NOT AS EXPECTED: %s\n", what);
}

/* ---- The log ---- */

static void log_sent(const char *name, const char *what, const uint8_t *octets, size_t length)
{
    printf("   %-8s sends %s\n", name, what);
    for (size_t i = 0; i < length; i++) {
        if (i % 22 == 0)
            printf("%s   %-8s", i == 0 ? "" : "\n", i == 0 ? "octets" : "");
        printf(" %02X", octets[i]);
    }
    printf("\n");
}

static void log_answer(const char *event, struct tacit_answer answer)
{
    char line[TACIT_ANSWER_TEXT_MOST];
    tacit_answer_text(line, sizeof line, answer);
    printf("   %-8s %s: %s\n", "root", event, line);
}

static void log_capabilities(const char *name, uint32_t set)
{
    const char *before = " ";
    printf("   %-8s holds", name);
    for (uint32_t each = TACIT_CAPABILITY_P2MP; each <= TACIT_CAPABILITY_HSMP; each <<= 1) {
        if ((set & each) == 0)
            continue;
        printf("%s%s", before, tacit_capability_text(each));
        before = ", ";
    }
    printf("%s\n", set == 0 ? " none of P2MP, MP2MP and HSMP" : "");
}

/* What is negotiated, and what each end holds, as the record has it. */
static void log_session(const char *peer, const uint8_t *record)
{
    const char *before = " ";
    struct tacit_session session = tacit_load(record, TACIT_RECORD_LENGTH).session;
    uint32_t common = session.enabled & session.listed;
    printf("   %-8s has negotiated", "root");
    for (uint32_t ta_id = 1; ta_id <= TACIT_APPLICATIONS; ta_id++) {
        if ((common & TACIT_APP_SET(ta_id)) == 0)
            continue;
        printf("%s%s", before, tacit_application_text(ta_id));
        before = ", ";
    }
    printf("%s\n", common == 0 ? " nothing" : "");
    log_capabilities("root", session.ours);
    log_capabilities(peer, session.theirs);
}

/* The operator asks: may labels of this kind be sent, and if not, why? */
static uint8_t ask(const uint8_t *record, uint32_t kind)
{
    struct tacit_reason why = tacit_why_not(record, TACIT_RECORD_LENGTH, kind);
    expect(why.refusal == 0, "the question is answered");
    if (why.reason == TACIT_PERMITTED)
        printf("   %-8s may send labels of %s\n", "root", tacit_kind_text(kind));
    else
        printf("   %-8s keeps back labels of %s: %s\n", "root", tacit_kind_text(kind),
               tacit_why_text(why.reason));
    return why.reason;
}

static bool label_is_due(const uint8_t *record, uint32_t kind)
{
    bool sent = tacit_permitted(record, TACIT_RECORD_LENGTH, kind).permitted == 1;
    printf("   %-8s a label of %s is due: %s\n", "root", tacit_kind_text(kind),
           sent ? "sent" : "not sent");
    return sent;
}

/* ---- Messages ---- */

/* The TLVs of these capabilities: with S, held; without, withdrawn. */
static size_t put_capabilities(uint8_t *area, uint32_t set, bool s)
{
    static const struct {
        uint32_t capability;
        uint8_t type[2];
    } types[] = {{TACIT_CAPABILITY_P2MP, {0x85, 0x08}},
                 {TACIT_CAPABILITY_MP2MP, {0x85, 0x09}},
                 {TACIT_CAPABILITY_HSMP, {0x89, 0x02}}};
    size_t length = 0;
    for (size_t i = 0; i < COUNT(types); i++) {
        if ((set & types[i].capability) == 0)
            continue;
        const uint8_t tlv[] = {types[i].type[0], types[i].type[1], 0, 1, s ? 0x80 : 0x00};
        memcpy(area + length, tlv, sizeof tlv);
        length += sizeof tlv;
    }
    return length;
}

/* A TAC with these applications. */
static size_t put_list(uint8_t *area, uint32_t applications)
{
    size_t length = 5;
    for (uint32_t ta_id = 1; ta_id <= TACIT_APPLICATIONS; ta_id++) {
        if ((applications & TACIT_APP_SET(ta_id)) == 0)
            continue;
        const uint8_t element[] = {0, (uint8_t)ta_id, 0x80, 0};
        memcpy(area + length, element, sizeof element);
        length += sizeof element;
    }
    const uint8_t head[] = {0x85, 0x0F, 0, (uint8_t)(length - 4), 0x80};
    memcpy(area, head, sizeof head);
    return length;
}

/* The parameters of an Initialization: Dynamic, a list unless it is empty, capabilities. */
static size_t parameters(uint8_t *area, uint32_t applications, uint32_t capabilities)
{
    const uint8_t dynamic[] = {0x85, 0x06, 0, 1, 0x80};
    size_t length = sizeof dynamic;
    memcpy(area, dynamic, sizeof dynamic);
    if (applications != 0)
        length += put_list(area + length, applications);
    return length + put_capabilities(area + length, capabilities, true);
}

/* Ours: the library writes neither the list nor the capabilities, but the record has both. */
static void send_initialization(const uint8_t *record)
{
    uint8_t area[128];
    struct tacit_session session = tacit_load(record, TACIT_RECORD_LENGTH).session;
    size_t length = parameters(area, session.enabled, session.ours);
    log_sent("root", "its Initialization", area, length);
}

static struct tacit_answer initialize(uint8_t *record, const char *peer, uint32_t applications,
                                      uint32_t capabilities)
{
    uint8_t area[128];
    size_t length = parameters(area, applications, capabilities);
    log_sent(peer, "its Initialization", area, length);
    struct tacit_answer answer = tacit_initialization(record, TACIT_RECORD_LENGTH, area, length);
    log_answer("Initialization", answer);
    expect(answer.outcome == TACIT_DONE, "the session opens");
    return answer;
}

/* The branch announces these capabilities by a Capability message, or withdraws them. */
static struct tacit_answer announce(uint32_t capabilities, bool s)
{
    static uint8_t number = 0x51;
    uint8_t message[64] = {0x02, 0x02, 0, 0, 0, 0, 0, number++};
    size_t length = put_capabilities(message + TACIT_MESSAGE_AREA, capabilities, s);
    message[3] = (uint8_t)(4 + length);
    log_sent("branch", "a Capability message", message, TACIT_MESSAGE_AREA + length);
    struct tacit_answer answer =
        tacit_capability(root, sizeof root, message + TACIT_MESSAGE_AREA, length);
    log_answer("Capability message", answer);
    expect(answer.refusal == 0 && answer.outcome == TACIT_DONE, "the session stays open");
    return answer;
}

/* ---- The story ---- */

static void step(const char *title)
{
    static unsigned number;
    printf("\n%u. %s\n", ++number, title);
}

static void create(uint8_t *record)
{
    struct tacit_settings settings = {.initiating = true,
                                      .active = true,
                                      .uses_tac = true,
                                      .enabled = tunnels,
                                      .first_number = 1,
                                      .capabilities = handled};
    expect(tacit_create(record, TACIT_RECORD_LENGTH, settings) == 0, "a session is created");
}

static void begin(void)
{
    puts("LABELS FOR A TREE");
    puts("");
    puts("A root router, ours, has a session with a branch router. Both support LDPv4");
    puts("Tunneling and mLDP Tunneling. The root can handle P2MP and MP2MP trees. The branch");
    puts("can handle none yet: labels of a tree would be lost on it.");
    create(root);
}

static void negotiated_and_not_held(void)
{
    step("The session opens, and mLDP Tunneling is negotiated");
    send_initialization(root);
    struct tacit_answer answer = initialize(root, "branch", tunnels, 0);
    log_session("branch", root);
    puts("   The operator asks for three kinds that mLDP Tunneling opens:");
    expect(ask(root, TACIT_KIND_P2MP) == TACIT_CAPABILITY_NOT_THEIRS, "the branch lacks P2MP");
    expect(ask(root, TACIT_KIND_MP2MP_DOWN) == TACIT_CAPABILITY_NOT_THEIRS, "it lacks MP2MP");
    expect(ask(root, TACIT_KIND_HSMP_DOWNSTREAM) == TACIT_CAPABILITY_NOT_OURS, "so do we, HSMP");
    expect(!label_is_due(root, TACIT_KIND_P2MP), "no label of the tree is sent");
    expect(answer.gained == prefixes, "prefixes alone are gained");
    puts("   That both ends list the application was enough once, and a branch like this one");
    puts("   got labels of trees. Now each kind needs its own capability, held by both ends");
    puts("   (RFC 8223, section 4).");
}

static void announced(void)
{
    step("At night the branch is upgraded, and announces P2MP");
    struct tacit_answer answer = announce(TACIT_CAPABILITY_P2MP, true);
    log_session("branch", root);
    expect(answer.gained == p2mp && answer.lost == 0, "P2MP is gained");
    expect(ask(root, TACIT_KIND_P2MP) == TACIT_PERMITTED, "the tree's labels may be sent");
    expect(ask(root, TACIT_KIND_MP2MP_DOWN) == TACIT_CAPABILITY_NOT_THEIRS, "MP2MP's may not");
    expect(label_is_due(root, TACIT_KIND_P2MP), "they flow");
}

static void withdrawn_and_announced_again(void)
{
    step("The upgrade is taken back");
    struct tacit_answer answer = announce(TACIT_CAPABILITY_P2MP, false);
    expect(answer.lost == p2mp, "P2MP is lost");
    puts("   What is lost is withdrawn: the daemon takes back the labels of P2MP.");
    expect(!label_is_due(root, TACIT_KIND_P2MP), "no more are sent");

    step("It is made again, with MP2MP in it");
    answer = announce(TACIT_CAPABILITY_P2MP | TACIT_CAPABILITY_MP2MP, true);
    expect(answer.gained == (p2mp | mp2mp), "P2MP and MP2MP are gained");
    expect(label_is_due(root, TACIT_KIND_P2MP), "they flow again");
}

static void a_new_connection(void)
{
    step("The connection breaks");
    struct tacit_answer answer = tacit_closed(root, sizeof root);
    log_answer("closed", answer);
    log_session("branch", root);
    puts("   What is ours stays in the record; what the peer held goes with the connection.");
    expect(answer.lost == (prefixes | p2mp | mp2mp), "all is lost");

    step("It comes back, and the branch's Initialization holds both");
    send_initialization(root);
    answer = initialize(root, "branch", tunnels, handled);
    expect(answer.gained == (prefixes | p2mp | mp2mp), "all is gained at once");
    expect(label_is_due(root, TACIT_KIND_P2MP), "labels flow from the start");
}

static void without_negotiation(void)
{
    step("A router on the hill negotiates nothing");
    create(to_hill);
    struct tacit_answer answer = initialize(to_hill, "hill", 0, TACIT_CAPABILITY_MP2MP);
    log_session("hill", to_hill);
    expect(ask(to_hill, TACIT_KIND_P2MP) == TACIT_CAPABILITY_NOT_THEIRS, "it lacks P2MP");
    expect(ask(to_hill, TACIT_KIND_MP2MP_DOWN) == TACIT_PERMITTED, "it holds MP2MP");
    puts("   Without its TAC the session opens as RFC 5036 has it, and no application is asked");
    puts("   for. The capabilities are.");
    expect((answer.gained & p2mp) == 0 && (answer.gained & mp2mp) == mp2mp, "by what it holds");
}

int main(void)
{
    begin();
    negotiated_and_not_held();
    announced();
    withdrawn_and_announced_again();
    a_new_connection();
    without_negotiation();
    if (unexpected == 0)
        puts("\nAll as expected.");
    else
        printf("\n%u NOT AS EXPECTED\n", unexpected);
    return unexpected == 0 ? 0 : 1;
}
