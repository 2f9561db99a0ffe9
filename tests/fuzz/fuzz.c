/*
 * fuzz.c - the library against the second program, on calls made by libFuzzer
 *
 * An input is one session and what happens to it:
 *
 *   how it begins   an octet. Bit 7 is 0: it is created; bits 0 to 3 are the
 *                   roles, and two sets of 2 octets and a number of 4 follow,
 *                   and an octet of wishes and one of capabilities if bit 4 is 1.
 *                   Bit 7 is 1: a record of so many octets as bits 0 to 5 say follows.
 *   calls           each an octet and what it takes. Bits 0 to 3 of the octet are
 *                   the call, with bit 7 above them, bit 4 is on or off, bit 5 says
 *                   where buffers are lent, bit 6 lends empty ones as NULL. Areas have
 *                   a length of 2 octets, then octets; room has a length of 1; numbers
 *                   have the octets of their types; what is true or false has one, but
 *                   the first of a call, which is bit 4; settings are their fields.
 *                   The wishes are those that are kept, with these bits turned. The
 *                   record is the kind 2 of a move. Its kind 1 has 22 octets, which
 *                   stay from one move to the next; if bit 4 is 1, a length of 1, then
 *                   octets.
 *
 * If bit 6 of the first octet is 1, it is a row of sessions and what happens there:
 *
 *   how many        an octet, modulo 67.
 *   groups          of equal sessions, until so many are there. Each is an octet,
 *                   with how many less one in bits 0 to 5 and where they are from
 *                   in bits 6 and 7 (enum origin), and what that takes. A session
 *                   in a record begins as above.
 *   totals          none: they are those of the row at first, and then those that
 *                   events hand back.
 *   calls           each an octet and what it takes. Bits 0 to 3 are what is done
 *                   (enum deed), bits 4 to 6 are as above, bit 7 says that the area
 *                   is made of 3 octets. A row number is an octet, modulo the
 *                   sessions and two more, or FF and 8 octets.
 *
 * Numbers have the most significant octet first, but in the fields of a struct the
 * least. What is missing at the end is 0, so a short input can have a long area, or a
 * long row.
 */
#define _DEFAULT_SOURCE
#include "watched.h"

#include <fcntl.h>

enum {
    MOST_CALLS = 100,   /* of one input */
    MOST_AREA = 5000,   /* octets */
    MOST_ROOM = 40,     /* octets */
    MOST_RECORD = 0x3F, /* octets */
    MOST_ROW = 66,      /* sessions */
    ON_RECORD = LOAD,   /* the calls on the record of one session stand before this one */
    EVENTS = TACIT_EVENT_CLOSED + 1
};

_Static_assert(ON_RECORD <= 0x20, "five bits tell the calls on a record apart");

/* Where the sessions of a group are from. */
enum origin {
    FROM_FIELDS,         /* their fields */
    FROM_RECORD,         /* a record */
    FROM_INITIALIZATION, /* a record that had one, with the area that follows */
    FROM_LIST            /* the same, with an area that is made of 3 octets */
};

/* What is done in a row; the six events have their numbers. */
enum deed {
    ANY_EVENT = EVENTS, /* an event of any number, with all that any of them takes */
    COUNT,              /* how many sessions use an application */
    ONE_LIMIT,          /* one limit is set */
    ALL_LIMITS,         /* the limits are 13 octets */
    STORE_AND_LOAD,     /* a session of the row, or one behind it, in a record and back */
    LOAD_OCTETS,        /* a record, whose session then stands in the row if it is sound */
    ONE_WISH,           /* a wish of a session of the row, or of one behind it */
    ONE_TOTAL,          /* how many sessions permit a kind, by the totals */
    WALK,               /* the totals are counted anew, if the row is one */
    ALL_TOTALS,         /* the totals are 10 octets */
    DEEDS
};

_Static_assert(DEEDS <= 0x10, "four bits tell them apart");

DECLARE_CALLS(second)

static const struct calls library = CALLS_OF(tacit), second = CALLS_OF(second);
static struct places ours, theirs;

int LLVMFuzzerTestOneInput(const uint8_t *data, size_t size);

/* ---------------------------------------------------------------------- */
/* Inputs                                                                  */
/* ---------------------------------------------------------------------- */

/* What an input has brought about: the record of a session, or a row. */
struct scene {
    struct source source;
    struct octets input; /* what is left of it */
    uint8_t head;        /* of the call that is being made */
    bool flag_taken;     /* bit 4 of it was used */
    size_t record_length, count;
    uint32_t wishes; /* those that are kept */
    struct tacit_limits limits;
    struct tacit_totals totals;
    uint8_t record[MOST_RECORD], kind1[MOST_RECORD], area[MOST_AREA], room[MOST_ROOM];
    uint8_t row[MOST_ROW * SESSION_OCTETS];
    uint8_t one[SESSION_OCTETS]; /* a session that is lent by itself */
};

static uint64_t take(struct scene *scene, int octets)
{
    uint64_t number = 0;
    while (octets-- > 0) {
        number <<= 8;
        if (scene->input.length > 0) {
            number |= *scene->input.start++;
            scene->input.length--;
        }
    }
    return number;
}

static struct octets take_octets(struct scene *scene, uint8_t *to, size_t length)
{
    size_t there = length < scene->input.length ? length : scene->input.length;
    memset(to, 0, length);
    memcpy(to, scene->input.start, there);
    scene->input.start += there;
    scene->input.length -= there;
    return (struct octets){to, length};
}

/*
 * An area made of 16 bits and an octet: a Dynamic Capability Announcement if bit 13 is 1,
 * and a TAC unless bit 15 is, with the applications in bits 0 to 12, all of them with
 * E = 0 if bit 14 is 1; the capabilities in bits 0 to 2 of the octet, with S = 1 for
 * those in its bits 4 to 6.
 */
static struct octets made_area(uint8_t *area, uint64_t bits, uint64_t capabilities)
{
    static const uint8_t dynamic[] = {0x85, 0x06, 0, 1, 0x80};
    static const uint8_t types[][2] = {{0x85, 0x08}, {0x85, 0x09}, {0x89, 0x02}};
    uint8_t *tac = area;
    if (bits & 0x2000) {
        memcpy(area, dynamic, sizeof dynamic);
        tac += sizeof dynamic;
    }
    for (int i = 0; i < 3; i++) {
        if (capabilities >> i & 1) {
            uint8_t s = capabilities >> i & 0x10 ? 0x80 : 0;
            memcpy(tac, (uint8_t[]){types[i][0], types[i][1], 0, 1, s}, 5);
            tac += 5;
        }
    }
    if (bits & 0x8000)
        return (struct octets){area, (size_t)(tac - area)};
    uint8_t *next = tac + 5;
    for (uint8_t ta_id = 1; ta_id <= TACIT_APPLICATIONS; ta_id++) {
        if (bits & TACIT_APP_SET(ta_id)) {
            memcpy(next, (uint8_t[]){0, ta_id, bits & 0x4000 ? 0 : 0x80, 0}, 4);
            next += 4;
        }
    }
    memcpy(tac, (uint8_t[]){0x85, 0x0F, 0, (uint8_t)(next - tac - 4), 0x80}, 5);
    return (struct octets){area, (size_t)(next - area)};
}

static struct octets take_area(struct scene *scene, bool made)
{
    uint64_t number = take(scene, 2);
    return made ? made_area(scene->area, number, take(scene, 1))
                : take_octets(scene, scene->area, number % (MOST_AREA + 1));
}

static struct octets take_room(struct scene *scene)
{
    return take_octets(scene, scene->room, take(scene, 1) % (MOST_ROOM + 1));
}

/* A record of 24 octets, or of another length, in an octet, if bit 4 of the head is 1. */
static void take_record(struct scene *scene)
{
    scene->record_length = scene->head & 0x10 ? take(scene, 1) & MOST_RECORD : TACIT_RECORD_LENGTH;
    take_octets(scene, scene->record, scene->record_length);
}

/* The other record of a move. */
static struct octets take_kind1(struct scene *scene)
{
    if (scene->head & 0x10)
        return take_octets(scene, scene->kind1, take(scene, 1) & MOST_RECORD);
    return (struct octets){scene->kind1, TACIT_KIND1_LENGTH};
}

static size_t take_row_number(struct scene *scene)
{
    uint64_t octet = take(scene, 1);
    return (size_t)(octet < 0xFF ? octet % (scene->count + 2) : take(scene, 8));
}

/* What calls take, as they are described. */
static bool flag(struct source *source)
{
    struct scene *scene = (struct scene *)source;
    bool first = !scene->flag_taken;
    scene->flag_taken = true;
    return first ? scene->head & 0x10 : take(scene, 1) & 1;
}

static uint64_t number(struct source *source, int octets)
{
    return take((struct scene *)source, octets);
}

static const uint8_t *fields(struct source *source, size_t length)
{
    static uint8_t octets[WIDEST];
    return take_octets((struct scene *)source, octets, length).start;
}

static struct octets buffer(struct source *source, enum buffer which)
{
    struct scene *scene = (struct scene *)source;
    switch (which) {
    case AREA:
        return take_area(scene, false);
    case ROOM:
        return take_room(scene);
    case KIND1:
        return take_kind1(scene);
    case ROW:
        return (struct octets){scene->row, scene->count * SESSION_OCTETS};
    case ONE:
        return (struct octets){scene->one, SESSION_OCTETS};
    default:
        return (struct octets){scene->record, scene->record_length};
    }
}

/*
 * Keeps the input in the file that FUZZ_LAST names, should it end the program:
 * under an emulator libFuzzer cannot.
 */
static void keep(const uint8_t *data, size_t size)
{
    static int file = -2;
    if (file == -2) {
        const char *name = getenv("FUZZ_LAST");
        file = name == NULL ? -1 : open(name, O_WRONLY | O_CREAT | O_TRUNC, 0666);
    }
    if (file >= 0 && (ftruncate(file, 0) != 0 || pwrite(file, data, size, 0) != (ssize_t)size))
        stop("the input cannot be kept");
}

/* ---------------------------------------------------------------------- */
/* What calls come to                                                      */
/* ---------------------------------------------------------------------- */

enum { MADE = CALLS + EVENTS + 1, REFUSALS = 256, OUTCOMES = 4 };

/* How often each call for rows was made, by what it came to. */
static unsigned long refusals[MADE][REFUSALS], outcomes[MADE][OUTCOMES];

/* Events by number are told apart. */
static size_t made_number(const struct given *given)
{
    if (given->call != ROW_EVENT)
        return given->call;
    return CALLS + (given->event.which < EVENTS ? given->event.which : EVENTS);
}

static void count_made(const struct given *given, const uint8_t *said)
{
    size_t i = made_number(given);
    if (given->call < ON_RECORD)
        return;
    refusals[i][said[0]]++;
    if (given->call == ROW_EVENT && said[0] == 0)
        outcomes[i][said[1] % OUTCOMES]++;
}

static void tell(void)
{
    for (size_t i = ON_RECORD; i < MADE; i++) {
        bool any = false;
        for (int j = 0; j < REFUSALS; j++) {
            if (refusals[i][j] == 0)
                continue;
            if (!any)
                fprintf(stderr, "  %-20s", call_names[i < CALLS ? i : ROW_EVENT]);
            if (!any && i >= CALLS)
                fprintf(stderr, " %zu,", i - CALLS);
            any = true;
            fprintf(stderr, " %d: %lu", j, refusals[i][j]);
        }
        for (uint32_t j = 0; j < OUTCOMES; j++) {
            if (outcomes[i][j] > 0)
                fprintf(stderr, ", %s %lu", tacit_outcome_text(j), outcomes[i][j]);
        }
        if (any)
            fprintf(stderr, "\n");
    }
}

/* ---------------------------------------------------------------------- */
/* Differences                                                             */
/* ---------------------------------------------------------------------- */

static void show(const char *what, const uint8_t *octets, size_t length)
{
    fprintf(stderr, "  %-14s ", what);
    for (size_t i = 0; i < length; i++)
        fprintf(stderr, "%02X", octets[i]);
    fprintf(stderr, " (%zu octets)\n", length);
}

/* Shows the sessions of a row that are others than those before; all, if there are none. */
static void show_row(const uint8_t *row, size_t length, const uint8_t *before)
{
    for (size_t i = 0; i < length; i += SESSION_OCTETS) {
        char name[40];
        snprintf(name, sizeof name, "session %zu", i / SESSION_OCTETS);
        if (before == NULL || memcmp(row + i, before + i, SESSION_OCTETS) != 0)
            show(name, row + i, SESSION_OCTETS);
    }
}

static void show_argument(const char *name, const uint8_t *octets, size_t length)
{
    if (strcmp(name, buffer_names[ROW]) == 0)
        show_row(octets, length, NULL);
    else
        show(name, octets, length);
}

static void show_left(const char *who, const struct given *given, const uint8_t *said,
                      const struct places *places)
{
    static uint8_t left[LARGEST];
    fprintf(stderr, "  %s\n", who);
    show("said", said, SAID);
    for (int i = 0; i < BUFFERS; i++) {
        struct octets before = given->lent[i];
        if (!is_written(given, i))
            continue;
        put_place(left, (enum buffer)i, &places->of[i]);
        if (i == ROW)
            show_row(left, before.length, before.start);
        else
            show(buffer_names[i], left, before.length);
    }
}

static bool same_left(const struct given *given)
{
    static uint8_t left[LARGEST];
    for (int i = 0; i < BUFFERS; i++) {
        if (is_written(given, i)) {
            put_place(left, (enum buffer)i, &theirs.of[i]);
            if (!stands((enum buffer)i, &ours.of[i], (struct octets){left, given->lent[i].length}))
                return false;
        }
    }
    return true;
}

/* Keeps the wishes of a new session, and those that a wish hands back. */
static void keep_wishes(struct scene *scene, const struct given *given, const uint8_t *said)
{
    if (said[0] != 0)
        return;
    if (given->call == CREATE)
        scene->wishes = given->settings.wishes;
    if (given->call == WISH || given->call == SESSION_WISH)
        scene->wishes = (uint32_t)get_number(said + ANSWER_OCTETS, sizeof scene->wishes);
}

/* Makes a call of both; the scene then is as it was left. */
static void compare(struct scene *scene, const struct given *given, uint8_t *said)
{
    uint8_t again[SAID];
    bool to_the_end = scene->head & 0x20;
    uint8_t second_faults = make_watched(&second, given, &theirs, to_the_end, said);
    uint8_t faults = make_watched(&library, given, &ours, to_the_end, again);
    if (faults != 0 || second_faults != 0 || memcmp(said, again, SAID) != 0 || !same_left(given)) {
        fprintf(stderr, "difference: %s, faults %d, of the second program %d\n",
                call_names[given->call], faults, second_faults);
        show_given(given, show_argument);
        show_left("second", given, said, &theirs);
        show_left("library", given, again, &ours);
        abort();
    }
    uint8_t *const kept[BUFFERS] = {[RECORD] = scene->record,
                                    [KIND1] = scene->kind1,
                                    [KIND2] = scene->record,
                                    [ROOM] = scene->room,
                                    [ROW] = scene->row,
                                    [ONE] = scene->one};
    for (int i = 0; i < BUFFERS; i++) {
        if (is_written(given, i))
            put_place(kept[i], (enum buffer)i, &theirs.of[i]);
    }
    keep_wishes(scene, given, said);
    count_made(given, said);
}

/* ---------------------------------------------------------------------- */
/* One session                                                             */
/* ---------------------------------------------------------------------- */

/* A call that is given the record and the row, and nothing else yet. */
static struct given call_of(struct scene *scene, enum call call)
{
    struct given given = {.call = (uint8_t)call, .null = scene->head & 0x40};
    given.lent[RECORD] = buffer(&scene->source, RECORD);
    given.lent[ROW] = buffer(&scene->source, ROW);
    given.lent[ONE] = buffer(&scene->source, ONE);
    given.lent[AREA] = (struct octets){scene->area, 0};
    given.lent[ROOM] = (struct octets){scene->room, 0};
    return given;
}

/* Begins a session in a record, as the head says. */
static void begin(struct scene *scene)
{
    uint8_t how = scene->head, said[SAID];
    memset(scene->record, 0, MOST_RECORD);
    scene->record_length = how & 0x80 ? how & MOST_RECORD : TACIT_RECORD_LENGTH;
    if (how & 0x80) {
        take_octets(scene, scene->record, scene->record_length);
        return;
    }
    struct given given = call_of(scene, CREATE);
    given.null = false;
    given.settings.initiating = how & 1;
    given.settings.active = how >> 1 & 1;
    given.settings.uses_tac = how >> 2 & 1;
    given.settings.drops = how >> 3 & 1;
    given.settings.protected_kinds = (uint32_t)take(scene, 2);
    given.settings.enabled = (uint32_t)take(scene, 2);
    given.settings.first_number = (uint32_t)take(scene, 4);
    given.settings.wishes = how & 0x10 ? (uint32_t)take(scene, 1) : 0;
    given.settings.capabilities = how & 0x10 ? (uint32_t)take(scene, 1) : 0;
    compare(scene, &given, said);
}

static void lead_session(struct scene *scene)
{
    begin(scene);
    memset(scene->kind1, 0, MOST_RECORD);
    for (int calls = 0; calls < MOST_CALLS && scene->input.length > 0; calls++) {
        uint8_t said[SAID];
        scene->head = (uint8_t)take(scene, 1);
        scene->flag_taken = false;
        uint8_t call = (uint8_t)((scene->head & 0x0F) | (scene->head >> 3 & 0x10));
        struct given given = {.call = call % ON_RECORD, .null = scene->head & 0x40};
        take_given(&given, &scene->source);
        given.wishes ^= scene->wishes;
        compare(scene, &given, said);
    }
}

/* ---------------------------------------------------------------------- */
/* A row of sessions                                                       */
/* ---------------------------------------------------------------------- */

/* Loads the session of the record; hands back the refusal. */
static uint8_t load(struct scene *scene, uint8_t *fields)
{
    uint8_t said[SAID];
    struct given given = call_of(scene, LOAD);
    compare(scene, &given, said);
    memcpy(fields, said + 1, SESSION_OCTETS);
    return said[0];
}

/* A session that begins in a record and may have had its Initialization there. */
static void take_in_record(struct scene *scene, enum origin origin, uint8_t *fields)
{
    uint8_t said[SAID];
    scene->head = (uint8_t)take(scene, 1);
    begin(scene);
    if (origin != FROM_RECORD) {
        struct given given = call_of(scene, INITIALIZATION);
        given.null = false;
        given.lent[AREA] = take_area(scene, origin == FROM_LIST);
        compare(scene, &given, said);
    }
    load(scene, fields);
}

static void take_group(struct scene *scene, size_t most)
{
    uint8_t head = (uint8_t)take(scene, 1), fields[SESSION_OCTETS];
    enum origin origin = (enum origin)(head >> 6);
    size_t many = (head & 0x3Fu) + 1;
    if (origin == FROM_FIELDS)
        take_octets(scene, fields, SESSION_OCTETS);
    else
        take_in_record(scene, origin, fields);
    for (; many > 0 && scene->count < most; many--)
        memcpy(scene->row + SESSION_OCTETS * scene->count++, fields, SESSION_OCTETS);
}

/* An event takes what it reads; one of any number takes everything. */
static void take_row_event(struct scene *scene, uint32_t deed)
{
    uint8_t said[SAID];
    struct given given = call_of(scene, ROW_EVENT);
    bool any = deed == ANY_EVENT;
    given.limits = scene->limits;
    given.totals = scene->totals;
    given.at = take_row_number(scene);
    given.event.which = any ? (uint32_t)take(scene, 4) : deed;
    given.event.on = any ? (uint32_t)take(scene, 4) : scene->head >> 4 & 1;
    if (any || deed == TACIT_EVENT_LOCAL_CHANGE)
        given.event.ta_id = (uint32_t)take(scene, 4);
    if (any || deed == TACIT_EVENT_HELLO)
        given.event.number = (uint32_t)take(scene, 4);
    if (any || deed == TACIT_EVENT_INITIALIZATION || deed == TACIT_EVENT_CAPABILITY)
        given.lent[AREA] = take_area(scene, scene->head & 0x80);
    if (any || deed == TACIT_EVENT_LOCAL_CHANGE)
        given.lent[ROOM] = take_room(scene);
    compare(scene, &given, said);
    get_totals(&scene->totals, said + ANSWER_OCTETS);
}

static void total_of_kind(struct scene *scene)
{
    uint8_t said[SAID];
    struct given given = call_of(scene, KIND_TOTAL);
    given.totals = scene->totals;
    given.kind = (uint32_t)take(scene, 4);
    compare(scene, &given, said);
}

static void walk(struct scene *scene)
{
    uint8_t said[SAID];
    struct given given = call_of(scene, RECOUNT);
    compare(scene, &given, said);
    if (said[0] == 0)
        get_totals(&scene->totals, said + 1);
}

static void count_row(struct scene *scene)
{
    uint8_t said[SAID];
    struct given given = call_of(scene, ROW_COUNT);
    given.ta_id = (uint32_t)take(scene, 4);
    compare(scene, &given, said);
}

static void set_limit(struct scene *scene)
{
    uint8_t said[SAID];
    struct given given = call_of(scene, SET_LIMIT);
    given.limits = scene->limits;
    given.ta_id = (uint32_t)take(scene, 4);
    given.limit = (uint32_t)take(scene, 4);
    compare(scene, &given, said);
    memcpy(scene->limits.of, said + 1, sizeof scene->limits.of);
}

/* The fields of a session of the row, or of one behind it; hands back its number. */
static size_t take_session(struct scene *scene, uint8_t *fields)
{
    size_t at = take_row_number(scene);
    if (at < scene->count)
        memcpy(fields, scene->row + SESSION_OCTETS * at, SESSION_OCTETS);
    else
        take_octets(scene, fields, SESSION_OCTETS);
    return at;
}

static void store_and_load(struct scene *scene)
{
    uint8_t fields[SESSION_OCTETS], said[SAID];
    take_session(scene, fields);
    take_record(scene);
    struct given given = call_of(scene, STORE);
    get_session(&given.session, fields);
    compare(scene, &given, said);
    load(scene, fields);
}

static void load_octets(struct scene *scene)
{
    uint8_t fields[SESSION_OCTETS];
    size_t at = take_row_number(scene);
    take_record(scene);
    if (load(scene, fields) == 0 && at < scene->count)
        memcpy(scene->row + SESSION_OCTETS * at, fields, SESSION_OCTETS);
}

static void wish_of_one(struct scene *scene)
{
    uint8_t said[SAID];
    size_t at = take_session(scene, scene->one);
    struct given given = call_of(scene, SESSION_WISH);
    given.wishes = scene->wishes ^ (uint32_t)take(scene, 4);
    given.app = (uint32_t)take(scene, 4);
    given.disable = scene->head >> 4 & 1;
    given.lent[ROOM] = take_room(scene);
    compare(scene, &given, said);
    if (at < scene->count)
        memcpy(scene->row + SESSION_OCTETS * at, scene->one, SESSION_OCTETS);
}

static void lead_row(struct scene *scene)
{
    size_t most = (size_t)take(scene, 1) % (MOST_ROW + 1);
    scene->limits = tacit_no_limits();
    while (scene->count < most)
        take_group(scene, most);
    scene->totals = (struct tacit_totals){0};
    walk(scene);
    for (int calls = 0; calls < MOST_CALLS && scene->input.length > 0; calls++) {
        scene->head = (uint8_t)take(scene, 1);
        uint8_t deed = (scene->head & 0x0F) % DEEDS;
        if (deed <= ANY_EVENT)
            take_row_event(scene, deed);
        else if (deed == COUNT)
            count_row(scene);
        else if (deed == ONE_LIMIT)
            set_limit(scene);
        else if (deed == ALL_LIMITS)
            take_octets(scene, scene->limits.of, sizeof scene->limits.of);
        else if (deed == STORE_AND_LOAD)
            store_and_load(scene);
        else if (deed == LOAD_OCTETS)
            load_octets(scene);
        else if (deed == ONE_WISH)
            wish_of_one(scene);
        else if (deed == ONE_TOTAL)
            total_of_kind(scene);
        else if (deed == WALK)
            walk(scene);
        else
            take_octets(scene, scene->totals.of, sizeof scene->totals.of);
    }
}

int LLVMFuzzerTestOneInput(const uint8_t *data, size_t size)
{
    static struct scene scene;
    if (ours.of[0].start == NULL) {
        prepare(&ours);
        prepare(&theirs);
        atexit(tell);
    }
    keep(data, size);
    scene.source = (struct source){flag, number, fields, buffer};
    scene.input = (struct octets){data, size};
    scene.count = 0;
    scene.wishes = 0;
    scene.head = (uint8_t)take(&scene, 1);
    if (scene.head & 0x40)
        lead_row(&scene);
    else
        lead_session(&scene);
    return 0;
}
