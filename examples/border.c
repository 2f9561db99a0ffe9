/*
 * A night at the border: a border router stops IPv4 prefixes in the evening and
 * takes them again in the morning. Both ends are shown, each with its record, and
 * ours with its wishes beside it. Run it with `make demo`; what it prints is kept in
 * border.txt.
 */
#include "tacit.h"

#include <stdio.h>
#include <string.h>

#define COUNT(list) (sizeof(list) / sizeof *(list))

/* One end of a session. Only the border has wishes here. */
struct end {
    const char *name;
    bool active;
    bool dynamic; /* it takes Capability messages, and says so */
    uint32_t wishes;
    uint8_t record[TACIT_RECORD_LENGTH];
};

/* The border's session with a core router, then the one with an older router on the hill. */
static struct end border = {.name = "border", .active = true, .dynamic = true};
static struct end core = {.name = "core", .dynamic = true};
static struct end border_to_hill = {.name = "border", .active = true, .dynamic = true};
static struct end hill = {.name = "hill"};

/* What every end supports. */
static const uint8_t list[] = {TACIT_APP_LDPV4_TUNNELING, TACIT_APP_LDPV6_TUNNELING,
                               TACIT_APP_FEC129_PW};

static const uint32_t ipv4 = TACIT_KIND_SET(TACIT_KIND_IPV4_PREFIX);
static const uint32_t ipv6 = TACIT_KIND_SET(TACIT_KIND_IPV6_PREFIX);
static const uint32_t pseudowires = TACIT_KIND_SET(TACIT_KIND_GENERALIZED_PWID);

static unsigned unexpected;

static void expect(bool holds, const char *what)
{
    if (holds)
        return;
    unexpected++;
    printf("   NOT AS EXPECTED: %s\n", what);
}

/* ---- The log ---- */

static void print_octets(const char *title, const uint8_t *octets, size_t length)
{
    for (size_t i = 0; i < length; i++) {
        if (i % 22 == 0)
            printf("%s   %-8s", i == 0 ? "" : "\n", i == 0 ? title : "");
        printf(" %02X", octets[i]);
    }
    printf("\n");
}

static void log_answer(const struct end *end, const char *event, struct tacit_answer answer)
{
    char line[TACIT_ANSWER_TEXT_MOST];
    tacit_answer_text(line, sizeof line, answer);
    printf("   %-8s %s: %s\n", end->name, event, line);
}

static void log_wishes(const struct end *end)
{
    const char *before = "";
    printf("   %-8s wishes no bindings of: ", end->name);
    for (uint32_t app = 1; app <= 4; app++) {
        if ((end->wishes & TACIT_SAC_SET(app)) == 0)
            continue;
        printf("%s%s", before, tacit_sac_app_text(app));
        before = ", ";
    }
    printf("%s\n", end->wishes == 0 ? "none" : "");
}

static void log_kept_back(const struct end *end)
{
    for (uint32_t kind = 0; kind <= 9; kind++) {
        struct tacit_reason why = tacit_why_not(end->record, sizeof end->record, kind);
        if (why.reason == TACIT_DISABLED_BY_PEER)
            printf("   %-8s keeps back %s: %s\n", end->name, tacit_kind_text(kind),
                   tacit_why_text(why.reason));
    }
}

static uint32_t permitted(const struct end *end)
{
    return tacit_permitted_kinds(end->record, sizeof end->record).kinds;
}

/* ---- Messages ---- */

/* The parameters of an end's Initialization: Dynamic, its list, and the SAC of its wishes. */
static size_t initialization_area(const struct end *end, uint8_t *area, size_t most)
{
    static const uint8_t dynamic[] = {0x85, 0x06, 0x00, 0x01, 0x80};
    const uint8_t head[] = {0x85, 0x0F, 0x00, (uint8_t)(1 + 4 * COUNT(list)), 0x80};
    size_t length = 0;
    if (end->dynamic) {
        memcpy(area, dynamic, sizeof dynamic);
        length += sizeof dynamic;
    }
    memcpy(area + length, head, sizeof head);
    length += sizeof head;
    for (size_t i = 0; i < COUNT(list); i++) {
        const uint8_t element[] = {0x00, list[i], 0x80, 0x00};
        memcpy(area + length, element, sizeof element);
        length += sizeof element;
    }
    struct tacit_written sac = tacit_wish_sac(end->wishes, area + length, most - length);
    expect(sac.refusal == 0, "the SAC finds its room");
    return length + sac.written;
}

static void initialize(struct end *end, const struct end *from)
{
    uint8_t area[64];
    size_t length = initialization_area(from, area, sizeof area);
    if (from->wishes != 0)
        print_octets("octets", area, length);
    struct tacit_answer answer =
        tacit_initialization(end->record, sizeof end->record, area, length);
    char event[40];
    snprintf(event, sizeof event, "Initialization of %s", from->name);
    log_answer(end, event, answer);
    expect(answer.outcome == TACIT_DONE, "the session opens");
}

static void open_session(struct end *ours, struct end *theirs)
{
    log_wishes(ours);
    initialize(theirs, ours);
    initialize(ours, theirs);
    log_kept_back(theirs);
}

static void close_session(struct end *ours, struct end *theirs)
{
    log_answer(ours, "closed", tacit_closed(ours->record, sizeof ours->record));
    log_answer(theirs, "closed", tacit_closed(theirs->record, sizeof theirs->record));
}

/* The operator's wish. What it writes is sent, and the other end reads it. */
static struct tacit_answer wish(struct end *ours, struct end *theirs, uint32_t app, bool disable)
{
    uint8_t room[TACIT_WISH_LENGTH];
    char event[48];
    struct tacit_wished wished = tacit_wish(ours->record, sizeof ours->record, ours->wishes, app,
                                            disable, room, sizeof room);
    ours->wishes = wished.wishes;
    snprintf(event, sizeof event, "%s %s", disable ? "stop" : "take again",
             tacit_sac_app_text(app));
    log_answer(ours, event, wished.answer);
    if (wished.answer.written != 0) {
        print_octets("octets", room, wished.answer.written);
        log_answer(theirs, "Capability message",
                   tacit_capability(theirs->record, sizeof theirs->record,
                                    room + TACIT_MESSAGE_AREA,
                                    wished.answer.written - TACIT_MESSAGE_AREA));
    }
    return wished.answer;
}

/* What no message can say now the next Initialization will: the wishes are the daemon's own. */
static void keep_for_later(struct end *ours, uint32_t app, bool disable)
{
    if (disable)
        ours->wishes |= TACIT_SAC_SET(app);
    else
        ours->wishes &= ~TACIT_SAC_SET(app);
}

static bool binding_arrives(const struct end *end, uint32_t kind)
{
    struct tacit_want want = tacit_wanted(end->wishes, kind);
    expect(want.refusal == 0, "the question is answered");
    printf("   %-8s a binding of %s arrives: %s\n", end->name, tacit_kind_text(kind),
           want.wanted ? "wanted" : "not wanted, not installed");
    return want.wanted;
}

/* ---- The story ---- */

static void step(const char *title)
{
    static unsigned number;
    printf("\n%u. %s\n", ++number, title);
}

static void create(struct end *end, uint32_t wishes)
{
    uint32_t enabled = 0;
    for (size_t i = 0; i < COUNT(list); i++)
        enabled |= TACIT_APP_SET(list[i]);
    struct tacit_settings settings = {.initiating = end->active,
                                      .active = end->active,
                                      .uses_tac = true,
                                      .enabled = enabled,
                                      .first_number = 1,
                                      .wishes = wishes};
    expect(tacit_create(end->record, sizeof end->record, settings) == 0, "a session is created");
    end->wishes = wishes;
}

static void begin(void)
{
    puts("A NIGHT AT THE BORDER");
    puts("");
    puts("A border router, ours, has a session with a core router for tunnels over IPv4 and");
    puts("IPv6 and for pseudowires. It has no use for IPv6 prefixes, and by night none for");
    puts("IPv4 prefixes. What it wishes it keeps beside its record.");
    create(&border, TACIT_SAC_SET(TACIT_SAC_IPV6_PREFIX));
    create(&core, 0);
}

static void by_day(void)
{
    step("By day: the Initialization holds the SAC");
    open_session(&border, &core);
    puts("   A wish is about what the core sends. What the border may send is as it was.");
    expect(permitted(&core) == (ipv4 | pseudowires), "the core keeps IPv6 prefixes back");
    expect(permitted(&border) == (ipv4 | ipv6 | pseudowires), "the border has all three");
}

static void in_the_evening(void)
{
    step("In the evening: the operator stops IPv4 prefixes");
    struct tacit_answer answer = wish(&border, &core, TACIT_SAC_IPV4_PREFIX, true);
    log_wishes(&border);
    expect(answer.written == TACIT_WISH_LENGTH && answer.lost == 0, "a message is written");
    expect(permitted(&core) == pseudowires, "the core withdraws IPv4 prefixes");
    puts("   Told once more:");
    answer = wish(&border, &core, TACIT_SAC_IPV4_PREFIX, true);
    expect(answer.outcome == TACIT_UNCHANGED, "it was so already");
    puts("   The core had sent a binding before it read the message:");
    expect(!binding_arrives(&border, TACIT_KIND_IPV4_PREFIX), "it is not wanted");
    expect(binding_arrives(&border, TACIT_KIND_GENERALIZED_PWID), "pseudowires are");
}

static void at_night(void)
{
    step("At night: the connection breaks");
    close_session(&border, &core);
    log_wishes(&border);
    puts("   The border is made ready for IPv6, and its operator takes the prefixes again:");
    struct tacit_answer answer = wish(&border, &core, TACIT_SAC_IPV6_PREFIX, false);
    expect(answer.refusal == TACIT_REFUSED_STATE, "there is nobody to tell");
    puts("   No message can go out. The daemon keeps the new wish for the next Initialization.");
    keep_for_later(&border, TACIT_SAC_IPV6_PREFIX, false);

    step("The connection comes back");
    open_session(&border, &core);
    puts("   The core began with nothing disabled, and was told again.");
    expect(permitted(&core) == (ipv6 | pseudowires), "the wishes have outlived the session");
}

static void in_the_morning(void)
{
    step("In the morning: the operator takes IPv4 prefixes again");
    struct tacit_answer answer = wish(&border, &core, TACIT_SAC_IPV4_PREFIX, false);
    log_wishes(&border);
    expect(answer.written == TACIT_WISH_LENGTH, "a message is written");
    expect(permitted(&core) == (ipv4 | ipv6 | pseudowires), "the core sends all again");
    expect(binding_arrives(&border, TACIT_KIND_IPV4_PREFIX), "the prefixes are wanted");
}

static void at_an_older_peer(void)
{
    step("The same at a peer that takes no Capability messages");
    create(&border_to_hill, 0);
    create(&hill, 0);
    open_session(&border_to_hill, &hill);
    struct tacit_answer answer = wish(&border_to_hill, &hill, TACIT_SAC_IPV4_PREFIX, true);
    expect(answer.refusal == TACIT_REFUSED_NOT_DYNAMIC, "the hill cannot be told");
    puts("   Only an Initialization can tell it. The daemon closes and opens the session anew");
    puts("   (RFC 7473, section 5), or lets the wish wait until it closes by itself.");
    close_session(&border_to_hill, &hill);
    keep_for_later(&border_to_hill, TACIT_SAC_IPV4_PREFIX, true);
    open_session(&border_to_hill, &hill);
    expect(permitted(&hill) == (ipv6 | pseudowires), "the hill keeps IPv4 prefixes back");
}

int main(void)
{
    begin();
    by_day();
    in_the_evening();
    at_night();
    in_the_morning();
    at_an_older_peer();
    if (unexpected == 0)
        puts("\nAll as expected.");
    else
        printf("\n%u NOT AS EXPECTED\n", unexpected);
    return unexpected == 0 ? 0 : 1;
}
