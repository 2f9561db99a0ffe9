/*
 * The calls for sessions and rows, each in a wrapper. What an event of a row must
 * come to is worked out by the call for a record; the limits and the totals are
 * added here.
 */
#include "harness.h"

#include <string.h>

#define ROOM_MOST 64

/* ---- Sessions ---- */

bool same_session(struct tacit_session a, struct tacit_session b)
{
    return a.state == b.state && a.flags == b.flags && a.disabled == b.disabled &&
           a.enabled == b.enabled && a.listed == b.listed && a.protects == b.protects &&
           a.ours == b.ours && a.theirs == b.theirs && a.hello == b.hello && a.next == b.next;
}

static void put(uint8_t *octets, uint32_t number, int count)
{
    for (int i = 0; i < count; i++)
        octets[i] = (uint8_t)(number >> 8 * i);
}

static uint32_t get(const uint8_t *octets, int count)
{
    uint32_t number = 0;
    for (int i = 0; i < count; i++)
        number |= (uint32_t)octets[i] << 8 * i;
    return number;
}

struct record record_for(struct tacit_session session)
{
    struct record record = {{22, 0, 2, 0, session.state, session.flags}, TACIT_RECORD_LENGTH};
    put(record.octets + 6, session.enabled, 2);
    put(record.octets + 8, session.listed, 2);
    put(record.octets + 10, session.protects, 2);
    record.octets[12] = session.disabled;
    put(record.octets + 14, session.hello, 4);
    put(record.octets + 18, session.next, 4);
    record.octets[22] = session.ours;
    record.octets[23] = session.theirs;
    return record;
}

struct tacit_session session_in(const struct record *record)
{
    struct tacit_session session = {
        .state = record->octets[4],
        .flags = record->octets[5],
        .disabled = record->octets[12],
        .enabled = (uint16_t)get(record->octets + 6, 2),
        .listed = (uint16_t)get(record->octets + 8, 2),
        .protects = (uint16_t)get(record->octets + 10, 2),
        .ours = record->octets[22],
        .theirs = record->octets[23],
        .hello = get(record->octets + 14, 4),
        .next = get(record->octets + 18, 4),
    };
    return session;
}

static bool sound_session(struct tacit_session session)
{
    struct record record = record_for(session);
    return sound(&record);
}

uint32_t used(struct tacit_session session)
{
    bool negotiated = session.state == TACIT_OPEN && (session.flags & TACIT_FLAG_IN_FORCE) != 0;
    return negotiated ? session.enabled & session.listed : 0;
}

/* ---- Padding ---- */

/* A session as it lies in memory, with this octet wherever no field is. */
static void lay_out(uint8_t *octets, const struct tacit_session *session, uint8_t padding)
{
#define LAY(field)                                                                     \
    memcpy(octets + offsetof(struct tacit_session, field), &session->field, sizeof session->field)
    memset(octets, padding, sizeof *session);
    LAY(state);
    LAY(flags);
    LAY(disabled);
    LAY(enabled);
    LAY(listed);
    LAY(protects);
    LAY(ours);
    LAY(theirs);
    LAY(hello);
    LAY(next);
#undef LAY
}

static struct tacit_session *lend_row(const struct sessions *row, uint8_t padding)
{
    uint8_t octets[sizeof row->at];
    for (size_t i = 0; i < row->length; i++)
        lay_out(octets + i * sizeof *row->at, &row->at[i], padding);
    return (void *)lend(ROW, octets, row->length * sizeof *row->at);
}

/* Is the row as wanted? Sessions beside the one that may change, padding included. */
static bool row_is(const struct tacit_session *lent, const struct sessions *wanted, size_t at,
                   uint8_t padding)
{
    for (size_t i = 0; i < wanted->length; i++) {
        uint8_t octets[sizeof *lent];
        lay_out(octets, &wanted->at[i], padding);
        if (i == at ? !same_session(lent[i], wanted->at[i])
                    : memcmp(&lent[i], octets, sizeof octets) != 0)
            return false;
    }
    return margin_kept(ROW, wanted->length * sizeof *lent);
}

/* ---- Records ---- */

struct tacit_loaded load(const struct record *record)
{
    const struct tacit_session none = {.state = TACIT_NO_STATE};
    uint8_t *lent = lend(RECORD, record->octets, record->length);
    struct tacit_loaded answer = tacit_load(lent, record->length);
    CHECK(same(lent, record->octets, record->length) && margin_kept(RECORD, record->length));
    CHECK(answer.refusal == (sound(record) ? 0 : 10));
    CHECK(same_session(answer.session, answer.refusal == 0 ? session_in(record) : none));
    return answer;
}

uint8_t store(struct tacit_session session, struct record *record)
{
    struct record wanted = record_for(session);
    bool right = record->length == TACIT_RECORD_LENGTH && sound(&wanted);
    uint8_t refusal = 0;
    for (unsigned padding = 0; padding < 256; padding += 255) {
        struct tacit_session padded;
        lay_out((uint8_t *)&padded, &session, (uint8_t)padding);
        uint8_t *lent = lend(RECORD, record->octets, record->length);
        refusal = tacit_store(padded, lent, record->length);
        CHECK(refusal == (right ? 0 : 10));
        CHECK(same(lent, right ? wanted.octets : record->octets, record->length));
        CHECK(margin_kept(RECORD, record->length));
    }
    if (refusal == 0)
        *record = wanted;
    return refusal;
}

/* ---- Limits and counts ---- */

struct tacit_limited set_limit(struct tacit_limits limits, uint32_t ta_id, uint32_t limit)
{
    struct tacit_limited answer = tacit_set_limit(limits, ta_id, limit);
    bool known = ta_id >= 1 && ta_id <= TACIT_APPLICATIONS;
    CHECK(answer.refusal == (!known ? 6 : limit > TACIT_LIMIT_MOST ? 12 : 0));
    for (uint32_t other = 1; other <= TACIT_APPLICATIONS; other++) {
        bool set = answer.refusal == 0 && other == ta_id;
        CHECK(answer.limits.of[other - 1] == (set ? limit : limits.of[other - 1]));
    }
    return answer;
}

static unsigned users(const struct sessions *row, uint32_t ta_id)
{
    unsigned count = 0;
    for (size_t i = 0; i < row->length; i++)
        if ((used(row->at[i]) & TACIT_APP_SET(ta_id)) != 0)
            count++;
    return count;
}

/* 11 and 10, which are asked of the row before all else. */
static uint8_t refusal_of_row(const struct sessions *row, size_t at)
{
    if (row->length == 0 || row->length > TACIT_ROW_MOST || at >= row->length)
        return TACIT_REFUSED_ROW;
    for (size_t i = 0; i < row->length; i++)
        if (!sound_session(row->at[i]))
            return TACIT_REFUSED_NOT_SOUND;
    return 0;
}

struct tacit_count row_count(const struct sessions *row, uint32_t ta_id)
{
    const uint8_t padding = 0xA5;
    uint8_t wanted = refusal_of_row(row, 0);
    if (wanted == 0 && (ta_id < 1 || ta_id > TACIT_APPLICATIONS))
        wanted = TACIT_REFUSED_NUMBER;
    struct tacit_session *lent = lend_row(row, padding);
    struct tacit_count answer = tacit_row_count(lent, row->length, ta_id);
    CHECK(row_is(lent, row, SIZE_MAX, padding));
    CHECK(answer.refusal == wanted);
    CHECK(answer.count == (wanted == 0 ? users(row, ta_id) : 0));
    return answer;
}

/* ---- Totals ---- */

bool same_totals(struct tacit_totals a, struct tacit_totals b)
{
    return memcmp(a.of, b.of, sizeof a.of) == 0;
}

struct tacit_totals walked(const struct sessions *row)
{
    struct tacit_totals totals = {{0}};
    for (size_t i = 0; i < row->length; i++) {
        uint32_t set = tacit_session_kinds(row->at[i]).kinds;
        for (uint32_t kind = 0; kind < TACIT_KINDS; kind++)
            totals.of[kind] += (uint8_t)(set >> kind & 1);
    }
    return totals;
}

struct tacit_total kind_total(struct tacit_totals totals, uint32_t kind)
{
    struct tacit_total answer = tacit_kind_total(totals, kind);
    CHECK(answer.refusal == (kind > 9 ? TACIT_REFUSED_NUMBER : 0));
    CHECK(answer.total == (kind > 9 ? 0 : totals.of[kind]));
    return answer;
}

struct tacit_row_totals recount(const struct sessions *row)
{
    const struct tacit_totals none = {{0}};
    const uint8_t padding = 0xA5;
    uint8_t wanted = refusal_of_row(row, 0);
    struct tacit_session *lent = lend_row(row, padding);
    struct tacit_row_totals answer = tacit_recount(lent, row->length);
    CHECK(row_is(lent, row, SIZE_MAX, padding));
    CHECK(answer.refusal == wanted);
    CHECK(same_totals(answer.totals, wanted == 0 ? walked(row) : none));
    return answer;
}

/* ---- What an event must come to ---- */

static struct tacit_answer refused(uint8_t refusal)
{
    struct tacit_answer answer = {refusal, 0, 0, 0, 0};
    return answer;
}

static struct tacit_answer record_event(struct record *record, const struct row_call *call,
                                        uint8_t *room)
{
    const struct tacit_event *event = &call->event;
    switch (event->which) {
    case TACIT_EVENT_INITIALIZATION:
        return initialization(record, call->area, call->area_length);
    case TACIT_EVENT_CAPABILITY:
        return capability(record, call->area, call->area_length);
    case TACIT_EVENT_LOCAL_CHANGE:
        return local_change(record, event->ta_id, event->on != 0, room, call->room_length);
    case TACIT_EVENT_MISMATCH:
        return mismatch(record);
    case TACIT_EVENT_HELLO:
        return hello(record, event->number);
    case TACIT_EVENT_CLOSED:
        return closed(record);
    default:
        return refused(TACIT_REFUSED_STATE);
    }
}

/* There are common applications, and none is used by fewer sessions than its limit. */
static bool turned_away(const struct sessions *row, uint32_t common, struct tacit_limits limits)
{
    for (uint32_t ta_id = 1; ta_id <= TACIT_APPLICATIONS; ta_id++) {
        unsigned limit = limits.of[ta_id - 1];
        if (limit > TACIT_LIMIT_MOST)
            limit = TACIT_LIMIT_MOST;
        if ((common & TACIT_APP_SET(ta_id)) != 0 && users(row, ta_id) < limit)
            return false;
    }
    return common != 0;
}

/* What happens where no total stands in the way. */
static struct tacit_answer happens(struct sessions *row, const struct row_call *call,
                                   uint8_t *room)
{
    uint8_t refusal = refusal_of_row(row, call->at);
    if (refusal != 0)
        return refused(refusal);
    struct record before = record_for(row->at[call->at]), after = before;
    struct tacit_answer answer = record_event(&after, call, room);
    if (call->event.which == TACIT_EVENT_INITIALIZATION && answer.refusal == 0 &&
        turned_away(row, used(session_in(&after)), call->limits)) {
        const struct tacit_answer at_limit = {0, TACIT_AT_LIMIT, 0, 0, 0};
        after = before;
        mismatch(&after);
        answer = at_limit;
    }
    row->at[call->at] = session_in(&after);
    return answer;
}

/* One lower for a kind lost, one higher for a kind gained; or false, outside 0 to 64. */
static bool moved(struct tacit_totals *totals, struct tacit_answer answer)
{
    for (uint32_t kind = 0; kind < TACIT_KINDS; kind++) {
        int lost = answer.lost >> kind & 1, gained = answer.gained >> kind & 1;
        int total = totals->of[kind] - lost + gained;
        if (lost + gained != 0 && (total < 0 || total > 64))
            return false;
        totals->of[kind] = (uint8_t)total;
    }
    return true;
}

/* The answer wanted; the row, its totals and the room become what they must be afterwards. */
static struct tacit_answer wanted_of(struct sessions *row, const struct row_call *call,
                                     uint8_t *room)
{
    struct sessions after = *row;
    uint8_t written[ROOM_MOST];
    memcpy(written, room, sizeof written);
    struct tacit_answer answer = happens(&after, call, written);
    if (!moved(&after.totals, answer))
        return refused(TACIT_REFUSED_TOTAL);
    *row = after;
    memcpy(room, written, sizeof written);
    return answer;
}

/* ---- Events ---- */

static struct tacit_answer by_number(const struct row_call *call, struct tacit_session *row,
                                     size_t length, struct tacit_totals *totals,
                                     const uint8_t *area, uint8_t *room)
{
    struct tacit_row_answer after =
        tacit_row_event(row, length, call->at, call->event, call->limits, *totals, area,
                        call->area_length, room, call->room_length);
    *totals = after.totals;
    return after.answer;
}

static struct tacit_answer by_name(const struct row_call *call, struct tacit_session *row,
                                   size_t length, struct tacit_totals *totals,
                                   const uint8_t *area, uint8_t *room)
{
    const struct tacit_event *event = &call->event;
    switch (event->which) {
    case TACIT_EVENT_INITIALIZATION:
        return tacit_row_initialization(row, length, call->at, call->limits, totals, area,
                                        call->area_length);
    case TACIT_EVENT_CAPABILITY:
        return tacit_row_capability(row, length, call->at, totals, area, call->area_length);
    case TACIT_EVENT_LOCAL_CHANGE:
        return tacit_row_local_change(row, length, call->at, totals, event->ta_id, event->on != 0,
                                      room, call->room_length);
    case TACIT_EVENT_MISMATCH:
        return tacit_row_mismatch(row, length, call->at, totals);
    case TACIT_EVENT_HELLO:
        return tacit_row_hello(row, length, call->at, totals, event->number);
    case TACIT_EVENT_CLOSED:
        return tacit_row_closed(row, length, call->at, totals);
    default:
        return by_number(call, row, length, totals, area, room);
    }
}

static bool same_answer(struct tacit_answer a, struct tacit_answer b)
{
    return a.refusal == b.refusal && a.outcome == b.outcome && a.lost == b.lost &&
           a.gained == b.gained && a.written == b.written;
}

struct tacit_answer row_event(struct sessions *row, struct row_call call)
{
    struct sessions after = *row;
    uint8_t room[ROOM_MOST] = {0};
    size_t room_length = call.room_length;
    CHECK(room_length <= sizeof room);
    if (room_length != 0)
        memcpy(room, call.room, room_length);
    struct tacit_answer wanted = wanted_of(&after, &call, room), answer = wanted;
    for (int turn = 0; turn < 2; turn++) {
        uint8_t padding = turn == 0 ? 0x00 : 0xFF;
        struct tacit_session *lent = lend_row(row, padding);
        struct tacit_totals *totals = (void *)lend(TOTALS, row->totals.of, sizeof row->totals);
        uint8_t *lent_area = lend(AREA, call.area, call.area_length);
        uint8_t *lent_room = lend(ROOM, call.room, room_length);
        answer = (turn == 0 ? by_number : by_name)(&call, lent, row->length, totals, lent_area,
                                                   lent_room);
        CHECK(same_answer(answer, wanted));
        CHECK(row_is(lent, &after, call.at, padding));
        CHECK(same_totals(*totals, after.totals) && margin_kept(TOTALS, sizeof *totals));
        CHECK(same(lent_area, call.area, call.area_length) && margin_kept(AREA, call.area_length));
        CHECK(same(lent_room, room, room_length) && margin_kept(ROOM, room_length));
    }
    *row = after;
    if (room_length != 0)
        memcpy(call.room, room, room_length);
    return answer;
}

struct tacit_answer row_initialization(struct sessions *row, size_t at, struct tacit_limits limits,
                                       const char *area)
{
    struct octets octets = hex(area);
    struct row_call call = {.at = at,
                            .event = {.which = TACIT_EVENT_INITIALIZATION},
                            .limits = limits,
                            .area = octets.at,
                            .area_length = octets.length};
    return row_event(row, call);
}

/* Where no limits are named they are all 0: events other than the above read none. */

struct tacit_answer row_capability(struct sessions *row, size_t at, const char *area)
{
    struct octets octets = hex(area);
    struct row_call call = {.at = at,
                            .event = {.which = TACIT_EVENT_CAPABILITY},
                            .area = octets.at,
                            .area_length = octets.length};
    return row_event(row, call);
}

struct tacit_answer row_local_change(struct sessions *row, size_t at, uint32_t ta_id, bool on,
                                     uint8_t *room, size_t room_length)
{
    struct row_call call = {.at = at,
                            .event = {.which = TACIT_EVENT_LOCAL_CHANGE, .ta_id = ta_id, .on = on},
                            .room = room,
                            .room_length = room_length};
    return row_event(row, call);
}

struct tacit_answer row_mismatch(struct sessions *row, size_t at)
{
    struct row_call call = {.at = at, .event = {.which = TACIT_EVENT_MISMATCH}};
    return row_event(row, call);
}

struct tacit_answer row_hello(struct sessions *row, size_t at, uint32_t number)
{
    struct row_call call = {.at = at, .event = {.which = TACIT_EVENT_HELLO, .number = number}};
    return row_event(row, call);
}

struct tacit_answer row_closed(struct sessions *row, size_t at)
{
    struct row_call call = {.at = at, .event = {.which = TACIT_EVENT_CLOSED}};
    return row_event(row, call);
}
