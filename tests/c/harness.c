#define _DEFAULT_SOURCE

#include "harness.h"

#include <signal.h>
#include <stdarg.h>
#include <stdio.h>
#include <stdlib.h>
#include <string.h>
#include <sys/mman.h>
#include <unistd.h>

/* ---- Counting ---- */

static const char *test_name = "";
static char attempt[160];
static unsigned long facts_failed;
static unsigned tests_passed, tests_failed;

void trying(const char *format, ...)
{
    va_list words;
    va_start(words, format);
    vsnprintf(attempt, sizeof attempt, format, words);
    va_end(words);
}

bool check(bool holds, const char *file, int line, const char *fact)
{
    if (holds)
        return true;
    facts_failed++;
    if (facts_failed <= 10)
        printf("  %s:%d: not so: %s%s%s\n", file, line, fact, attempt[0] ? ", trying " : "",
               attempt);
    return false;
}

void test(const char *name, void (*body)(void))
{
    test_name = name;
    attempt[0] = '\0';
    facts_failed = 0;
    body();
    if (facts_failed == 0)
        tests_passed++;
    else
        tests_failed++;
    printf("%s %s\n", facts_failed == 0 ? "ok    " : "FAILED", name);
    fflush(stdout);
}

/* ---- Where buffers lie ---- */

#define ARENA ((size_t)2 << 20)
#define MARGIN 64

static enum side guard_side;
static bool null_when_empty;
static uint8_t *arena[PLACES];

/* A page that cannot be touched, an arena, and such a page again. */
static uint8_t *fenced(size_t length)
{
    size_t page = (size_t)sysconf(_SC_PAGESIZE);
    uint8_t *all = mmap(NULL, length + 2 * page, PROT_NONE, MAP_PRIVATE | MAP_ANONYMOUS, -1, 0);
    if (all == MAP_FAILED || mprotect(all + page, length, PROT_READ | PROT_WRITE) != 0) {
        perror("no memory for the tests");
        exit(2);
    }
    return all + page;
}

/* What stands beside a buffer, on the side without a guard. */
static const uint8_t margin_octets[MARGIN] =
    "these octets lie beside a buffer, and nobody has lent them out.";

static uint8_t *margin_of(enum place place, size_t length)
{
    return guard_side == GUARD_BEHIND ? arena[place] + ARENA - length - MARGIN
                                      : arena[place] + length;
}

uint8_t *lend(enum place place, const uint8_t *content, size_t length)
{
    if (length > ARENA - MARGIN) {
        puts("a buffer is too long for the harness");
        exit(2);
    }
    memcpy(margin_of(place, length), margin_octets, MARGIN);
    if (length == 0 && null_when_empty)
        return NULL;
    uint8_t *octets = guard_side == GUARD_BEHIND ? arena[place] + ARENA - length : arena[place];
    if (length != 0)
        memcpy(octets, content, length);
    return octets;
}

bool margin_kept(enum place place, size_t length)
{
    return memcmp(margin_of(place, length), margin_octets, MARGIN) == 0;
}

bool same(const uint8_t *a, const uint8_t *b, size_t length)
{
    return length == 0 || memcmp(a, b, length) == 0;
}

static void say(const char *text)
{
    if (write(STDOUT_FILENO, text, strlen(text)) < 0)
        _exit(2);
}

static void broken_off(int signal_number)
{
    (void)signal_number;
    say("FAILED ");
    say(test_name);
    say(": a call touched memory that was not lent to it\n");
    _exit(1);
}

void lend_with(enum side side, bool empty_is_null)
{
    guard_side = side;
    null_when_empty = empty_is_null;
}

/* ---- Sessions ---- */

struct octets hex(const char *text)
{
    struct octets out = {{0}, 0};
    int high = -1;
    for (; *text; text++) {
        int digit;
        if (*text >= '0' && *text <= '9')
            digit = *text - '0';
        else if (*text >= 'A' && *text <= 'F')
            digit = *text - 'A' + 10;
        else
            continue;
        if (high < 0) {
            high = digit;
        } else {
            out.at[out.length++] = (uint8_t)(high * 16 + digit);
            high = -1;
        }
    }
    return out;
}

struct record record_of(const char *text)
{
    struct octets octets = hex(text);
    struct record record = {{0}, octets.length};
    memcpy(record.octets, octets.at, octets.length);
    return record;
}

bool same_record(const struct record *a, const struct record *b)
{
    return a->length == b->length && same(a->octets, b->octets, a->length);
}

struct record holding(uint32_t capabilities, uint32_t enabled)
{
    struct record record = {{0}, TACIT_RECORD_LENGTH};
    CHECK(create(&record,
                 (struct tacit_settings){.initiating = true, .active = true, .uses_tac = true,
                                         .enabled = enabled, .first_number = 1,
                                         .capabilities = capabilities}) == 0);
    return record;
}

struct record fresh(uint32_t enabled)
{
    return holding(TACIT_ALL_CAPABILITIES, enabled);
}

struct record opened_holding(uint32_t capabilities, uint32_t enabled, const char *area)
{
    struct record record = holding(capabilities, enabled);
    struct tacit_answer answer = initialization_text(&record, area);
    CHECK(answer.refusal == 0 && answer.outcome == TACIT_DONE);
    CHECK(state(&record) == TACIT_OPEN);
    return record;
}

struct record opened(uint32_t enabled, const char *area)
{
    return opened_holding(TACIT_ALL_CAPABILITIES, enabled, area);
}

uint32_t needed_for(uint32_t kind)
{
    static const uint8_t needed[TACIT_KINDS] = {[2] = 1, [3] = 2, [4] = 2, [5] = 4, [6] = 4};
    return needed[kind];
}

/* ---- Calls ---- */

struct tacit_reading read_area(const uint8_t *area, size_t length)
{
    uint8_t *lent = lend(AREA, area, length);
    struct tacit_reading reading = tacit_read(lent, length);
    CHECK(same(lent, area, length) && margin_kept(AREA, length));
    CHECK(reading.refusal <= 5);
    CHECK(reading.dynamic <= 1);
    CHECK(reading.capabilities <= 7 && (reading.holding & ~reading.capabilities) == 0);
    CHECK((size_t)reading.tac.start + reading.tac.length <= length);
    CHECK((size_t)reading.sac.start + reading.sac.length <= length);
    CHECK(reading.tac.length == 0 || reading.tac.length % 4 == 1);
    CHECK(reading.sac.length != 1);
    CHECK(reading.tac.length != 0 || reading.tac.start == 0);
    CHECK(reading.sac.length != 0 || reading.sac.start == 0);
    if (reading.refusal != 0)
        CHECK(reading.dynamic == 0 && reading.capabilities == 0 && reading.tac.length == 0 &&
              reading.sac.length == 0);
    return reading;
}

bool sound(const struct record *record)
{
    uint8_t *lent = lend(RECORD, record->octets, record->length);
    bool answer = tacit_sound(lent, record->length);
    CHECK(same(lent, record->octets, record->length) && margin_kept(RECORD, record->length));
    CHECK(!answer || record->length == TACIT_RECORD_LENGTH);
    return answer;
}

uint8_t state(const struct record *record)
{
    uint8_t *lent = lend(RECORD, record->octets, record->length);
    return tacit_state(lent, record->length);
}

struct tacit_permission permitted(const struct record *record, uint32_t kind)
{
    uint8_t *lent = lend(RECORD, record->octets, record->length);
    struct tacit_permission answer = tacit_permitted(lent, record->length, kind);
    CHECK(same(lent, record->octets, record->length) && margin_kept(RECORD, record->length));
    CHECK(answer.permitted <= 1);
    if (!sound(record))
        CHECK(answer.refusal == 10);
    else
        CHECK(answer.refusal == (kind > 9 ? 6 : 0));
    if (answer.refusal != 0)
        CHECK(answer.permitted == 0);
    return answer;
}

/* What the capability that the kind needs comes to, where nothing comes before it. */
static uint8_t reason_of_capability(const struct record *record, uint32_t kind)
{
    if ((needed_for(kind) & ~(uint32_t)record->octets[22]) != 0)
        return TACIT_CAPABILITY_NOT_OURS;
    if ((needed_for(kind) & ~(uint32_t)record->octets[23]) != 0)
        return TACIT_CAPABILITY_NOT_THEIRS;
    return TACIT_PERMITTED;
}

struct tacit_reason why_not(const struct record *record, uint32_t kind)
{
    uint8_t *lent = lend(RECORD, record->octets, record->length);
    struct tacit_reason answer = tacit_why_not(lent, record->length, kind);
    CHECK(same(lent, record->octets, record->length) && margin_kept(RECORD, record->length));
    struct tacit_permission permission = tacit_permitted(lent, record->length, kind);
    CHECK(answer.refusal == permission.refusal);
    CHECK(answer.reason <= TACIT_CAPABILITY_NOT_THEIRS);
    if (answer.refusal != 0) {
        CHECK(answer.reason == 0);
        return answer;
    }
    CHECK((answer.reason == TACIT_PERMITTED) == (permission.permitted == 1));
    CHECK((answer.reason == TACIT_NOT_OPEN) == (record->octets[4] != TACIT_OPEN));
    if (answer.reason == TACIT_NOT_ENABLED || answer.reason == TACIT_NOT_LISTED)
        CHECK((record->octets[5] & TACIT_FLAG_IN_FORCE) != 0);
    if (answer.reason == TACIT_PERMITTED || answer.reason >= TACIT_CAPABILITY_NOT_OURS)
        CHECK(answer.reason == reason_of_capability(record, kind));
    return answer;
}

struct tacit_kinds permitted_kinds(const struct record *record)
{
    uint8_t *lent = lend(RECORD, record->octets, record->length);
    struct tacit_kinds answer = tacit_permitted_kinds(lent, record->length);
    CHECK(same(lent, record->octets, record->length) && margin_kept(RECORD, record->length));
    CHECK(answer.refusal == (sound(record) ? 0 : 10));
    CHECK((answer.kinds & ~TACIT_ALL_KINDS) == 0);
    if (state(record) != TACIT_OPEN)
        CHECK(answer.kinds == 0);
    for (uint32_t kind = 0; kind <= 9; kind++) {
        CHECK(permitted(record, kind).permitted == (answer.kinds >> kind & 1));
        why_not(record, kind);
    }
    return answer;
}

struct tacit_retry retry_interval(const struct record *record)
{
    uint8_t *lent = lend(RECORD, record->octets, record->length);
    struct tacit_retry answer = tacit_retry_interval(lent, record->length);
    CHECK(same(lent, record->octets, record->length) && margin_kept(RECORD, record->length));
    CHECK(answer.refusal == (sound(record) ? 0 : 10));
    CHECK(answer.interval == (state(record) == TACIT_HELD ? 65535 : 0));
    return answer;
}

uint32_t kinds(const struct record *record)
{
    struct tacit_kinds answer = permitted_kinds(record);
    CHECK(answer.refusal == 0);
    return answer.kinds;
}

uint8_t create(struct record *record, struct tacit_settings settings)
{
    bool fits = settings.protected_kinds <= TACIT_ALL_KINDS &&
                settings.enabled <= TACIT_ALL_APPS && settings.wishes <= TACIT_ALL_SAC &&
                settings.capabilities <= TACIT_ALL_CAPABILITIES;
    uint8_t *lent = lend(RECORD, record->octets, record->length);
    uint8_t refusal = tacit_create(lent, record->length, settings);
    CHECK(margin_kept(RECORD, record->length));
    CHECK(refusal == (record->length != TACIT_RECORD_LENGTH ? 10 : fits ? 0 : 6));
    if (refusal != 0) {
        CHECK(same(lent, record->octets, record->length));
        return refusal;
    }
    memcpy(record->octets, lent, record->length);
    CHECK(state(record) == TACIT_READY);
    CHECK(retry_interval(record).interval == 0);
    CHECK(kinds(record) == 0);
    CHECK(record->octets[22] == settings.capabilities && record->octets[23] == 0);
    return refusal;
}

/* What must hold of the answer to any event. The room is looked at elsewhere. */
static void check_event(struct tacit_answer answer, const struct record *before,
                        const struct record *after)
{
    bool was_sound = sound(before);
    uint32_t kinds_before = permitted_kinds(before).kinds;
    uint32_t kinds_after = permitted_kinds(after).kinds;
    CHECK((answer.refusal == 10) == !was_sound);
    CHECK(answer.refusal <= 10);
    CHECK(answer.outcome <= 2);
    CHECK(answer.written == 0 || answer.written == TACIT_MESSAGE_LENGTH);
    CHECK(answer.lost == (kinds_before & ~kinds_after));
    CHECK(answer.gained == (kinds_after & ~kinds_before));
    if (answer.refusal != 0)
        CHECK(answer.outcome == 0 && answer.lost == 0 && answer.gained == 0 && answer.written == 0);
    if (answer.refusal != 0 || answer.outcome == TACIT_UNCHANGED)
        CHECK(same_record(before, after) && answer.written == 0);
    if (answer.outcome == TACIT_MISMATCH)
        CHECK(state(after) != TACIT_OPEN && answer.written == 0);
    if (was_sound) {
        CHECK(sound(after));
        CHECK(before->octets[22] == after->octets[22]);
        retry_interval(after);
    }
}

enum event { INITIALIZATION, CAPABILITY, MISMATCH, CLOSED };

static struct tacit_answer event(enum event which, struct record *record, const uint8_t *area,
                                 size_t length)
{
    struct record before = *record;
    uint8_t *lent = lend(RECORD, record->octets, record->length);
    uint8_t *lent_area = lend(AREA, area, length);
    struct tacit_answer answer = {0, 0, 0, 0, 0};
    switch (which) {
    case INITIALIZATION:
        answer = tacit_initialization(lent, record->length, lent_area, length);
        break;
    case CAPABILITY:
        answer = tacit_capability(lent, record->length, lent_area, length);
        break;
    case MISMATCH:
        answer = tacit_mismatch(lent, record->length);
        break;
    case CLOSED:
        answer = tacit_closed(lent, record->length);
        break;
    }
    CHECK(same(lent_area, area, length) && margin_kept(AREA, length));
    CHECK(margin_kept(RECORD, record->length));
    if (record->length != 0)
        memcpy(record->octets, lent, record->length);
    CHECK(answer.written == 0);
    check_event(answer, &before, record);
    return answer;
}

struct tacit_answer initialization(struct record *record, const uint8_t *area, size_t length)
{
    return event(INITIALIZATION, record, area, length);
}

struct tacit_answer capability(struct record *record, const uint8_t *area, size_t length)
{
    return event(CAPABILITY, record, area, length);
}

struct tacit_answer mismatch(struct record *record)
{
    return event(MISMATCH, record, NULL, 0);
}

struct tacit_answer closed(struct record *record)
{
    return event(CLOSED, record, NULL, 0);
}

struct tacit_answer hello(struct record *record, uint32_t number)
{
    struct record before = *record;
    uint8_t *lent = lend(RECORD, record->octets, record->length);
    struct tacit_answer answer = tacit_hello(lent, record->length, number);
    CHECK(margin_kept(RECORD, record->length));
    if (record->length != 0)
        memcpy(record->octets, lent, record->length);
    CHECK(answer.written == 0 && answer.lost == 0 && answer.gained == 0);
    check_event(answer, &before, record);
    return answer;
}

static uint32_t next_number(const struct record *record)
{
    uint32_t number = 0;
    for (int i = 3; i >= 0; i--)
        number = number << 8 | record->octets[18 + i];
    return number;
}

/* The message is the one for this change, and reads back as one TAC alone. */
static void check_message(const uint8_t *message, uint32_t number, uint32_t ta_id, bool on)
{
    const uint8_t wanted[TACIT_MESSAGE_LENGTH] = {
        0x02, 0x02, 0x00, 0x0D,
        (uint8_t)(number >> 24), (uint8_t)(number >> 16), (uint8_t)(number >> 8), (uint8_t)number,
        0x85, 0x0F, 0x00, 0x05, 0x80,
        0x00, (uint8_t)ta_id, on ? 0x80 : 0x00, 0x00,
    };
    CHECK(memcmp(message, wanted, sizeof wanted) == 0);
    struct tacit_reading reading =
        read_area(message + TACIT_MESSAGE_AREA, TACIT_MESSAGE_LENGTH - TACIT_MESSAGE_AREA);
    CHECK(reading.refusal == 0 && reading.dynamic == 0 && reading.sac.length == 0);
    CHECK(reading.capabilities == 0 && reading.tac.start == 4 && reading.tac.length == 5);
}

struct tacit_answer local_change(struct record *record, uint32_t ta_id, bool on, uint8_t *room,
                                 size_t room_length)
{
    struct record before = *record;
    uint8_t *lent = lend(RECORD, record->octets, record->length);
    uint8_t *lent_room = lend(ROOM, room, room_length);
    struct tacit_answer answer =
        tacit_local_change(lent, record->length, ta_id, on, lent_room, room_length);
    CHECK(margin_kept(RECORD, record->length) && margin_kept(ROOM, room_length));
    if (record->length != 0)
        memcpy(record->octets, lent, record->length);
    check_event(answer, &before, record);
    if (!CHECK(answer.written <= room_length))
        return answer;
    if (room_length > answer.written)
        CHECK(same(lent_room + answer.written, room + answer.written,
                   room_length - answer.written));
    if (answer.written != 0) {
        memcpy(room, lent_room, answer.written);
        check_message(room, next_number(&before), ta_id, on);
        CHECK(next_number(record) == (uint32_t)(next_number(&before) + 1));
        CHECK(state(record) == TACIT_OPEN);
    } else {
        CHECK(record->length != TACIT_RECORD_LENGTH || next_number(record) == next_number(&before));
    }
    return answer;
}

struct tacit_reading read_text(const char *area)
{
    struct octets octets = hex(area);
    return read_area(octets.at, octets.length);
}

struct tacit_answer initialization_text(struct record *record, const char *area)
{
    struct octets octets = hex(area);
    return initialization(record, octets.at, octets.length);
}

struct tacit_answer capability_text(struct record *record, const char *area)
{
    struct octets octets = hex(area);
    return capability(record, octets.at, octets.length);
}

/* ---- Numbers without order ---- */

uint32_t any_number(void)
{
    static uint64_t seed = 0x7AC17;
    seed = seed * UINT64_C(6364136223846793005) + UINT64_C(1442695040888963407);
    return (uint32_t)(seed >> 32);
}

/* ---- The run ---- */

int main(void)
{
    for (int place = 0; place < PLACES; place++)
        arena[place] = fenced(ARENA);
    signal(SIGSEGV, broken_off);
    signal(SIGBUS, broken_off);

    puts("buffers before a page that may not be touched; empty ones have an address");
    lend_with(GUARD_BEHIND, false);
    examples();
    rules();
    rows();
    totals();
    wishes();
    capabilities();
    moves();
    refusals();
    lengths();
    numbers();
    damage();
    words();

    puts("buffers behind a page that may not be touched; empty ones are NULL");
    lend_with(GUARD_BEFORE, true);
    examples();
    rules();
    rows();
    totals();
    wishes();
    capabilities();
    moves();
    refusals();
    lengths();
    numbers();
    damage();
    words();

    printf("%u passed, %u failed\n", tests_passed, tests_failed);
    return tests_failed == 0 && tests_passed > 0 ? 0 : 1;
}
